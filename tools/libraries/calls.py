"""Calls of libraries that may reach the system: each is exact in simulated time, refused with the way out, or told as real.

A row's call runs on a host with a server of UDP behind a link. After the loopback's address and PORT, a real TCP socket and a real
UDP socket note arrivals: an arrival that the report omits is silently real."""

import select
import socket
import subprocess
from contextlib import ExitStack
from typing import NamedTuple, Optional

EXACT, REFUSED, REAL = "exact", "refused", "told as real"
LIMIT = 60  # s of real time, after which a call hangs


class Row(NamedTuple):
    """A library's call: an expression, which begins with `await` or runs in a thread of the run, behind its imports."""

    package: str
    outcome: str
    imports: str
    call: str
    says: str = ""  # a part of the value, of the refusal or of the name of what was real


OF_SNMP = """SnmpEngine(), CommunityData('x'), UdpTransportTarget(('10.0.0.2', 9), 1, 1), ContextData(),
    ObjectType(ObjectIdentity('1.3.6'))"""
OLDER = "import types; vars(asyncio).update({'coroutine': types.coroutine, 'async': asyncio.ensure_future}); "  # what pysnmp wants
TCP = "simulated hosts have datagrams alone"
ROWS = (
    Row("statsd", EXACT, "import statsd", "statsd.StatsClient('server', 7).incr('x')", "None"),
    Row("pyrad", EXACT, "from pyrad import client, dictionary, packet", "RADIUS", "Timeout"),
    Row("pysnmp4", EXACT, "from pysnmp.hlapi import *", f"next(getCmd({OF_SNMP}))", "No SNMP response"),
    Row("tornado", EXACT, "import tornado.gen", "await tornado.gen.sleep(1.5)", "None"),
    Row("influxdb", EXACT, "import influxdb", "INFLUX", "True"),
    Row("redis", REFUSED, "import redis", "redis.Redis(host='127.0.0.1', port=PORT).ping()", TCP),
    Row("redis", REFUSED, "import redis.asyncio as r", "await r.Redis(host='127.0.0.1', port=PORT).ping()", TCP),
    Row("aiohttp", REFUSED, "import aiohttp", "await aiohttp.request('GET', URL).__aenter__()", TCP),
    Row("websockets", REFUSED, "import websockets", "await websockets.connect('ws://127.0.0.1:%d/' % PORT)", TCP),
    Row("asyncpg", REFUSED, "import asyncpg", "await asyncpg.connect(host='127.0.0.1', port=PORT, user='a')", TCP),
    Row("httpx", REFUSED, "import httpx", "httpx.get(URL)", TCP),
    Row("requests", REFUSED, "import requests", "requests.get(URL)", TCP),
    Row("paho-mqtt", REFUSED, "import paho.mqtt.client as m", "m.Client().connect(*AT)", TCP),
    Row("ldap3", REFUSED, "import ldap3", "ldap3.Connection(ldap3.Server(*AT)).bind()", TCP),
    Row("pymysql", REFUSED, "import pymysql", "pymysql.connect(host='127.0.0.1', port=PORT)", TCP),
    Row("pika", REFUSED, "import pika", "pika.BlockingConnection(pika.ConnectionParameters(*AT))", TCP),
    Row("pymemcache", REFUSED, "from pymemcache.client.base import Client", "Client(AT).get('x')", TCP),
    Row("stem", REFUSED, "import stem.control", "stem.control.Controller.from_port(*AT)", TCP),
    Row("asyncssh", REFUSED, "import asyncssh", "await asyncssh.connect('127.0.0.1', PORT, known_hosts=None)", TCP),
    Row("gevent", REFUSED, "from gevent import socket as g", "g.socket(g.AF_INET, 2).sendto(b'x', AT)", "real"),
    Row("eventlet", REFUSED, "from eventlet.green import socket as e", "e.socket(e.AF_INET, 2).sendto(b'x', AT)", "real"),
    Row("scapy", REFUSED, "from scapy.all import IP, UDP, sr1", "sr1(IP(dst=AT[0]) / UDP(dport=PORT), timeout=1)", "real"),
    Row("pyroute2", REFUSED, "from pyroute2 import IPRoute", "len(IPRoute().get_links())", "real"),
    Row("zmq", REAL, "import zmq", "ZMQ", "libzmq"),
    Row("psycopg2", REAL, "import psycopg2", "psycopg2.connect(host='127.0.0.1', port=PORT, connect_timeout=2)", "libpq"),
    Row("psycopg", REAL, "import psycopg", "psycopg.connect(host='127.0.0.1', port=PORT, connect_timeout=2)", "libpq"),
    Row("aiodns", REAL, "import aiodns", "await aiodns.DNSResolver(AT[:1], timeout=0.2, tries=1).query('a.test', 'A')", "cares"),
    Row("grpcio", REAL, "import grpc", "grpc.insecure_channel(PLACE).unary_unary('/a/b')(b'x')", "grpc"),
    Row("pycurl", REAL, "import pycurl", "CURL", "libcurl"),
    Row("liblo", REAL, "import liblo", "liblo.send(AT, '/x', 1)", "liblo"),
    Row("enet", REAL, "import enet", "ENET", "enet"),
    Row("miniupnpc", REAL, "import miniupnpc", "miniupnpc.UPnP().discover()", "miniupnpc"),
    Row("uvicorn", REFUSED, "import uvicorn as u", "await u.Server(u.Config(print, host='127.0.0.1', port=PORT)).serve()", TCP),
    Row("hypercorn", REFUSED, "import hypercorn.asyncio as h", "await h.serve(0, h.Config.from_mapping(bind=PLACE))", TCP),
    Row("aiosmtpd", REFUSED, "from aiosmtpd.controller import Controller", "Controller(None, *AT).start()", TCP),
    Row(
        "aioxmpp",
        REFUSED,
        "from aioxmpp import JID, connector as c, make_security_layer as m, node as n",
        "await n.connect_xmlstream(JID.fromstr('a@b.c'), m('b'), override_peer=[(*AT, c.STARTTLSConnector())])",
        TCP,
    ),
    Row("kazoo", REFUSED, "from kazoo.client import KazooClient", "KazooClient(PLACE).start(2)", TCP),
    Row("pysyncobj", REFUSED, "import pysyncobj, time", "[pysyncobj.SyncObj(PLACE, []), time.sleep(5)][0].isReady()", TCP),
    Row("kafka", REFUSED, "import kafka", "kafka.KafkaProducer(bootstrap_servers=PLACE)", TCP),
    Row("icmplib", REFUSED, "import icmplib", "icmplib.ping('127.0.0.1', count=1)", "real"),
    Row("pyftpdlib", REFUSED, "from pyftpdlib.servers import FTPServer", "FTPServer(AT, None)", TCP),
    Row("libtorrent", REAL, "import libtorrent", "TORRENT", "libtorrent"),
    Row("logging", EXACT, "import logging.handlers as h", "h.SysLogHandler(AWAY).emit(h.logging.makeLogRecord({}))", "None at 0"),
    Row("logging", REFUSED, "import logging.handlers as h", "h.SysLogHandler(AT, 1, 1)", TCP),
    Row(
        "aiohttp", REFUSED, "from aiohttp import test_utils as t, web", "await t.TestServer(web.Application()).start_server()", TCP
    ),
    Row(
        "zmq",
        REAL,
        "import zmq.asyncio as z",
        "await (s := z.Context().socket(7), s.connect('tcp://'+PLACE), s.poll(9))[2]",
        "desc",
    ),
    Row("grpcio", REAL, "import grpc", "await grpc.aio.insecure_channel(PLACE).unary_unary('/a/b')(b'x')", "grpc"),
    Row("gevent", REFUSED, "from gevent.server import DatagramServer", "DatagramServer(PLACE, print).start()", "real"),
    Row("gevent", REAL, "import gevent", "gevent.sleep(0.1)", "libev"),
    Row("eventlet", EXACT, "import eventlet", "eventlet.sleep(3)", "None at 3.0"),
    Row("can", EXACT, "import can", "CAN", "1, 2.0) at 3.0"),
    Row("trio", EXACT, "import trio", "await guest(trio, trio.sleep, 1.5)", "Value(None) at 1.5"),
    Row("trio", REFUSED, "import socket, trio", "trio.socket.from_stdlib_socket(socket.socket(2, 2))", "lowlevel.wait_readable"),
    Row("pysnmp4", EXACT, OLDER + "from pysnmp.hlapi.asyncio import *", f"await getCmd({OF_SNMP})", "No SNMP response"),
    Row("smtplib", REFUSED, "import smtplib", "smtplib.SMTP(*AT)", TCP),
    Row("xmlrpc", REFUSED, "import xmlrpc.client as x", "x.ServerProxy(URL).y()", TCP),
    Row("xmlrpc", REFUSED, "from xmlrpc.server import SimpleXMLRPCServer as Server", "Server(AT)", TCP),
    Row("socketserver", EXACT, "import socket, socketserver, threading", "SERVER", "(b'x', None) at 0.0"),
    Row("socketserver", REFUSED, "import socketserver", "socketserver.TCPServer(AT, None)", TCP),
    Row("multiprocessing", EXACT, "import queue, time, multiprocessing.dummy", "QUEUE", "([1.0, 2.0, 4.0], 1) at 4.3"),
    Row("multiprocessing", REAL, "import multiprocessing as m", "SPAWN", "fork_exec"),
    Row("multiprocessing", REAL, "import multiprocessing as m", "m.Pool(2).map(abs, [-1])", "os.fork"),
    Row("concurrent", REAL, "import concurrent.futures as c", "c.ProcessPoolExecutor(1).submit(abs, -1).result(9)", "os.fork"),
    Row("signal", REAL, "import signal", "signal.alarm(0)", "_signal.alarm"),
    Row("os", EXACT, "import os, socket, threading", "DESCRIPTORS", "(b'xyz', b'p') at 1.5"),
    Row("os", REFUSED, "import os, socket", "os.sendfile(socket.socket(2, 2).fileno(), 0, 0, 1)", "one descriptor"),
    Row("graypy", EXACT, "import graypy, logging", "graypy.GELFUDPHandler(*AWAY).emit(logging.makeLogRecord({}))", "None at 0"),
    Row("rpyc", EXACT, "from rpyc.utils import registry", "registry.UDPRegistryClient('10.0.0.2').discover('X')", "() at 2.0"),
    Row("rpyc", REFUSED, "import rpyc", "rpyc.connect(*AT)", TCP),
    Row("mpd", REFUSED, "import mpd", "mpd.MPDClient().connect(*AT)", TCP),
    Row("paramiko", REFUSED, "import paramiko", "paramiko.SSHClient().connect(*AT)", TCP),
    Row("websocket", REFUSED, "import websocket", "websocket.create_connection('ws://' + PLACE)", TCP),
    Row("stomp", REFUSED, "import stomp", "stomp.Connection([AT], reconnect_attempts_max=1).connect()", TCP),
    Row("thrift", REFUSED, "from thrift.transport.TSocket import TSocket", "TSocket(*AT).open()", TCP),
    Row("memcache", REFUSED, "import memcache", "memcache.Client([PLACE]).get('x')", TCP),
    Row("socks", REFUSED, "import socks", "socks.socksocket(2, 2).sendto(b'x', AT)", "real"),
    Row("uvloop", REAL, "import uvloop", "uvloop.new_event_loop().run_until_complete(asyncio.sleep(0.1))", "libuv"),
    Row("pylibmc", REAL, "import pylibmc", "pylibmc.Client([PLACE]).get('x')", "libmemcached"),
    Row("slixmpp", REAL, "import aiodns, slixmpp", "await asyncio.sleep(9, slixmpp.ClientXMPP('a@b', 'c').connect(AT))", "cares"),
)
LONGER = {  # calls of several statements, as functions
    "RADIUS": """
    words = dictionary.Dictionary(__import__('io').StringIO('ATTRIBUTE User-Name 1 string\\n'))
    asker = client.Client(server='server', authport=7, secret=b's', dict=words)
    asker.timeout, asker.retries = 2, 2
    try:
        return asker.SendPacket(asker.CreateAuthPacket(code=packet.AccessRequest, User_Name='a'))
    except client.Timeout as error:
        return repr(error)""",
    "TORRENT": """
    session = libtorrent.session({'listen_interfaces': '127.0.0.1:%d' % (PORT + 1)})
    __import__('time').sleep(1)
    return session.is_listening()""",
    "CAN": """
    one, other = (can.Bus(interface='virtual', channel='x') for _ in range(2))
    heard, clock = can.BufferedReader(), __import__('time')
    notifier = can.Notifier(other, [heard])
    clock.sleep(2)
    one.send(can.Message(arbitration_id=1))
    message, moment = heard.get_message(9), clock.monotonic()
    return notifier.stop(), message.arbitration_id, moment""",
    "SERVER": """
    class Echo(socketserver.DatagramRequestHandler):
        def handle(self):
            self.wfile.write(self.rfile.read())
    server = socketserver.ThreadingUDPServer(('10.0.0.1', 9), Echo)
    threading.Thread(target=server.serve_forever).start()
    asker = socket.socket(socket.AF_INET, socket.SOCK_DGRAM)
    asker.sendto(b'x', ('10.0.0.1', 9))
    return asker.recv(9), server.shutdown()""",
    "QUEUE": """
    made = multiprocessing.Queue()
    with multiprocessing.dummy.Pool(2) as pool:
        moments = pool.map(lambda length: (time.sleep(length), time.monotonic())[1], [1, 2, 3], 1)
    try:
        made.get(timeout=0.3)
    except queue.Empty:
        made.put(1)
    return moments, made.get()""",
    "SPAWN": """
    process = m.get_context('spawn').Process(target=len, args=('',))
    return process.start(), process.join()""",
    "DESCRIPTORS": """
    sock, (reader, writer) = socket.socket(2, 2), os.pipe()
    sock.bind(('10.0.0.1', 97))
    sock.connect(('10.0.0.1', 97))
    os.write(sock.fileno(), b'xyz')
    threading.Timer(1.5, os.write, [writer, b'p']).start()
    return os.read(sock.fileno(), 9), os.read(reader, 1)""",
    "INFLUX": """
    asker = influxdb.InfluxDBClient('127.0.0.1', use_udp=True, udp_port=7)
    return asker.write_points([{'measurement': 'x', 'fields': {'y': 1}}])""",
    "ZMQ": """
    asker = zmq.Context().socket(zmq.PUSH)
    asker.linger = 0
    asker.connect('tcp://127.0.0.1:%d' % PORT)
    asker.poll(300, zmq.POLLOUT)
    return asker.close()""",
    "CURL": """
    asker = pycurl.Curl()
    asker.setopt(asker.URL, 'http://127.0.0.1:%d/' % PORT)
    asker.setopt(asker.TIMEOUT_MS, 1000)
    return asker.perform()""",
    "ENET": """
    asker = enet.Host(None, 1, 0, 0, 0)
    asker.connect(enet.Address(b'127.0.0.1', PORT), 1)
    return asker.service(100).type""",
}
CHILD = """
import asyncio, sys
PORT = int(sys.argv[1])
AWAY, AT, PLACE, URL = ("server", 7), ("127.0.0.1", PORT), f"127.0.0.1:{{PORT}}", f"http://127.0.0.1:{{PORT}}/"
try:
    {imports}
except ImportError as lacking:
    print("lacks", lacking)
    sys.exit()
from hingetulip import aio

def longer():
    {longer}

async def guest(trio, *words):
    loop = asyncio.get_running_loop()
    end = loop.create_future()
    trio.lowlevel.start_guest_run(*words, run_sync_soon_threadsafe=loop.call_soon_threadsafe, done_callback=end.set_result)
    return await end

async def main(net):
    client, server = net.host("10.0.0.1"), net.host("10.0.0.2", name="server")
    net.path(client, server, "20ms")
    await server.endpoint(asyncio.DatagramProtocol, 7)
    await client.endpoint(asyncio.DatagramProtocol, 7)
    async def call():
        return {call}
    try:
        said = repr(await client.create_task(call()))
    except BaseException as error:
        said = f"{{type(error).__name__}}: {{error}}"
        chain = [error, error.__cause__, error.__context__]
        if any(isinstance(it, (aio.RealTimeError, NotImplementedError)) for it in chain) or "simulated hosts" in said:
            return "refused", said
    return "exact", said

with aio.Network() as net:
    try:
        outcome, said = net.run(main(net))
    except Exception as error:
        outcome, said = "ended", f"{{type(error).__name__}}: {{error}}"
    real = net.real_uses.all()
    if net.real_uses.refused and outcome == "exact":  # the library swallowed the refusal, which the report has
        outcome, said = "refused", " ".join([said, *net.real_uses.refused])
    is_real = real and outcome != "refused"
    said = ", ".join(sorted(real)) if is_real else f"{{said}} at {{net.loop.time():.6f}} s"
    print("told as real" if is_real else outcome, "|", " ".join(said.split()))
"""


def program(row: Row) -> str:
    is_longer = row.call in LONGER
    call = "longer()" if is_longer else row.call
    call = call if call.startswith("await") else f"await asyncio.to_thread(lambda: {call})"
    return CHILD.format(imports=row.imports, call=call, longer=LONGER.get(row.call, "pass").strip())


def came(sockets: list[socket.socket]) -> bool:
    """Returns whether something came to the real sockets."""
    return bool(select.select(sockets, [], [], 0)[0])


def answer(interpreter: str, row: Row, environment: dict[str, str], hash_seed: str) -> tuple[str, str]:
    """Returns the outcome and output of a row's call in a separate process."""
    with ExitStack() as stack:
        tcp = stack.enter_context(socket.create_server(("127.0.0.1", 0)))
        udp = stack.enter_context(socket.socket(socket.AF_INET, socket.SOCK_DGRAM))
        udp.bind(tcp.getsockname())
        words = [interpreter, "-c", program(row), str(tcp.getsockname()[1])]
        try:
            done = subprocess.run(
                words, env={**environment, "PYTHONHASHSEED": hash_seed}, capture_output=True, text=True, timeout=LIMIT
            )
        except subprocess.TimeoutExpired:
            return "hangs", ""
        last = (done.stdout.strip().splitlines() or [f"no verdict | {done.stderr[-500:]}"])[-1]
        outcome, _, said = last.partition(" | ")
        return ("silently real", said) if came([tcp, udp]) and outcome != REAL else (outcome, said)


def fault_of(interpreter: str, row: Row, environment: dict[str, str]) -> Optional[str]:
    """Returns what is wrong with a row: its outcome, or two processes that differ; None if the machine lacks the library."""
    first, again = (answer(interpreter, row, environment, hash_seed) for hash_seed in ("1", "77"))
    if first[0].startswith("lacks"):
        return None
    if first[0] != row.outcome or row.says not in first[1]:
        return f"{first[0]} ({first[1]}), and not {row.outcome} ({row.says})"
    return "" if row.outcome == REAL or first == again else f"another process: {again[1]}, and not {first[1]}"
