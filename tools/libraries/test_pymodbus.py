"""pymodbus: a client reads the registers of a server, and asks again if it has no answer in time."""

import asyncio

import pytest

pytest.importorskip("pymodbus", reason="no python3-pymodbus")
from pymodbus.client import AsyncModbusUdpClient  # noqa: E402
from pymodbus.datastore import ModbusSequentialDataBlock, ModbusServerContext, ModbusSlaveContext  # noqa: E402
from pymodbus.server.async_io import ModbusUdpServer  # noqa: E402

REGISTERS = [17] * 5


async def serve():
    slave = ModbusSlaveContext(hr=ModbusSequentialDataBlock(0, [17] * 100))
    await ModbusUdpServer(ModbusServerContext(slaves=slave, single=True), address=("10.0.0.2", 5020)).serve_forever()


async def read():
    client = AsyncModbusUdpClient("10.0.0.2", port=5020, timeout=1)
    await client.connect()
    for _ in range(20):  # the library repeats nothing
        try:
            return (await client.read_holding_registers(1, 5, slave=0)).registers
        except asyncio.TimeoutError:
            pass


@pytest.mark.link("8Mbit/s 20ms plr 0.1")
async def test_it(sim_net, pair, link_seed):
    client, server = pair
    server.create_task(serve())
    await asyncio.sleep(0.1)
    assert await client.create_task(read()) == REGISTERS
