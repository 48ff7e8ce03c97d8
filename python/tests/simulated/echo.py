"""Clients of an echo server in asyncio: `echo.py serve`, and `echo.py`."""

import asyncio
import random
import sys
import time


async def answer(reader: asyncio.StreamReader, writer: asyncio.StreamWriter) -> None:
    while line := await reader.readline():
        await asyncio.sleep(random.random() / 100)
        writer.write(line)
    writer.close()


async def ask(number: int) -> None:
    reader, writer = await asyncio.open_connection("server", 7000)
    for count in range(10):
        writer.write(f"{number} {count} {random.random()}\n".encode())
        print(time.time(), await reader.readline(), hash(str(count)), id(writer))
    writer.close()


async def main() -> None:
    if sys.argv[1:] == ["serve"]:
        await (await asyncio.start_server(answer, "", 7000)).serve_forever()
    await asyncio.gather(*map(ask, range(10)))


asyncio.run(main())
