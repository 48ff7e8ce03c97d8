"""Python's TCP libraries, unchanged: clients and servers over a lossy link do the same in two runs by one seed."""

import importlib.util
import os
import sys
import textwrap
from pathlib import Path

from machines import Repeated, needs

POSTGRES = (Path(__file__).with_name("programs") / "postgres.sh").read_text()
# Of each a server, and a client that prints `same` where an answer is right.
WEB = """
    from aiohttp import web
    async def echo(request):
        return web.Response(body=await request.read())
    app = web.Application()
    app.add_routes([web.post("/", echo)])
    web.run_app(app, host="10.8.0.2", port=8000, print=None)
    """
REQUESTS = (
    WEB,
    """
    import os, requests
    with requests.Session() as session:
        for data in (os.urandom(100_000) for _ in range(3)):
            answer = session.post("http://server:8000/", data=data, timeout=60)
            print(answer.headers["Date"], answer.elapsed, "same" if answer.content == data else "differs")
    """,
)
WEBSOCKETS = (
    """
    import asyncio, websockets
    async def echo(socket, path=None):
        async for data in socket:
            await socket.send(data)
    async def main():
        async with websockets.serve(echo, "10.8.0.2", 8000):
            await asyncio.Future()
    asyncio.run(main())
    """,
    """
    import asyncio, os, time, websockets
    async def main():
        async with websockets.connect("ws://server:8000") as socket:
            for data in (os.urandom(20_000) for _ in range(10)):
                await socket.send(data)
                print(time.time_ns(), "same" if await socket.recv() == data else "differs")
    asyncio.run(main())
    """,
)
AIOHTTP = (
    WEB,
    """
    import aiohttp, asyncio, os
    async def ask(session, data):
        async with session.post("http://server:8000/", data=data) as answer:
            return answer.headers["Date"], "same" if await answer.read() == data else "differs"
    async def main():
        async with aiohttp.ClientSession() as session:
            print(*await asyncio.gather(*(ask(session, os.urandom(20_000)) for _ in range(8))), sep="\\n")
    asyncio.run(main())
    """,
)
ASYNCPG = (
    POSTGRES,
    """
    import asyncio, asyncpg, os
    async def main():
        async with asyncpg.create_pool("postgres://postgres@server/postgres", min_size=3) as pool:
            await pool.execute("create table kept(number int primary key, data bytea, at timestamptz default now())")
            async def put(number):
                data = os.urandom(2_000)
                await pool.execute("insert into kept values($1, $2)", number, data)
                row = await pool.fetchrow("select * from kept where number = $1", number)
                return row["at"], "same" if row["data"] == data else "differs"
            print(*await asyncio.gather(*map(put, range(9))), await pool.fetchval("select gen_random_uuid()"), sep="\\n")
    asyncio.run(main())
    """,
)


class OfLibraries(Repeated):
    def echoes(self, library: tuple[str, str], count: int, *modules: str) -> None:
        if lacking := [f"python3-{name}" for name in modules if importlib.util.find_spec(name) is None]:
            self.skipTest(f"apt-get install {' '.join(lacking)}")
        paths = [self.folder / "server", self.folder / "client"]
        for path, text in zip(paths, library):
            path.write_text(textwrap.dedent(text))
        os.chmod(self.folder, 0o755)
        runs = "sh" if library[0] is POSTGRES else sys.executable
        words = ["--scratch", "--server-wait", "600s", "--server", f"exec {runs} {paths[0]}", "--", sys.executable, str(paths[1])]
        ran = self.twice(*words)
        self.assertEqual((ran.out.count("same"), ran.out.count("differs")), (count, 0), ran.out)
        self.assertGreater(ran.summary["up"]["lost"] + ran.summary["down"]["lost"], 0)

    def test_requests(self) -> None:
        self.echoes(REQUESTS, 3, "requests", "aiohttp")

    def test_websockets(self) -> None:
        self.echoes(WEBSOCKETS, 10, "websockets")

    def test_aiohttp(self) -> None:
        self.echoes(AIOHTTP, 8, "aiohttp")

    @needs("psql", "setpriv")
    def test_asyncpg(self) -> None:
        self.echoes(ASYNCPG, 9, "asyncpg")
