"""The pytest plugin: a passing test's fixtures, a failing test's report, and its use with xdist and pytest-asyncio.

Each test is a run of pytest over a file, in a process of its own.
"""

import re
from pytest_runs import Runs, lacking


class Plugin(Runs):
    def test_marks_presets_seeds_and_coroutines(self) -> None:
        done = self.run_pytest(
            """
            @pytest.mark.link("8Mbit/s 20ms plr 0.1", back="5ms")
            async def test_coroutine(sim_net, link_seed):
                assert link_seed == 7 == sim_net.seed
                assert 30 < await session(sim_net) < 60
                lines = [link.line for link in sim_net.links.values()]
                assert lines == ["pipe 1 config bw 8Mbit/s delay 20ms plr 0.1", "pipe 2 config delay 5ms"]

            class TestOfAClass:
                @pytest.mark.parametrize("count", (1, 2))
                async def test_method(self, sim_net, count):
                    assert await session(sim_net, count) == count

            @pytest.mark.parametrize("link_seed", range(1, 31))
            def test_minutes(sim_net, link_seed):
                sim_net.path(sim_net.host("10.0.0.1"), sim_net.host("10.0.0.2"), "40ms plr 0.05")
                assert sim_net.run(session(sim_net)) >= 45 and sim_net.seed == link_seed

            @pytest.mark.link(preset="dsl")
            async def test_a_preset(sim_net):
                await session(sim_net, 1)
                assert [link.line for link in sim_net.links.values()] == [
                    "pipe 1 config bw 384Kbit/s delay 25ms queue 10", "pipe 2 config bw 1500Kbit/s delay 25ms queue 30"]

            @pytest.mark.link(preset="Slow 3G")
            async def test_a_preset_in_capital_letters(sim_net):
                await session(sim_net, 1)
                assert {link.line[14:] for link in sim_net.links.values()} == {"bw 400Kbit/s delay 200ms queue 10"}

            async def two_hosts(sim_net):
                return sim_net.host("10.0.0.1"), sim_net.host("10.0.0.2")

            class TestOfAHelper:
                async def hosts(self, sim_net):
                    return await two_hosts(sim_net)

                async def test_method(self, sim_net):
                    assert len(await self.hosts(sim_net)) == 2

            async def test_helper(sim_net):
                assert len(await two_hosts(sim_net)) == 2

            @pytest.mark.parametrize("marked", ["bw='10Mbit/s', delay='20ms'", "'20ms', queue=30", "loss='5%'", "x=1"])
            def test_what_a_refusal_says_to_write_is_taken(marked):
                from hinge.testing.marks import WrongMark, ends_of
                from hingetulip_words.link import read_link
                with pytest.raises(WrongMark) as refusal:
                    ends_of(eval(f"pytest.mark.link({marked})").mark)
                written = str(refusal.value).partition("; write ")[2]
                assert read_link(ends_of(eval(f"pytest.mark.{written}").mark).there)
            """,
            "--link-seed=7",
            "--strict-markers",
        )
        self.assertEqual((done.counts, done.status), ({"passed": 41}, 0), done.text)

    def test_a_mark_that_says_what_it_does_not_take_is_refused(self) -> None:
        rows = {
            'link(bw="10Mbit/s", delay="20ms")': """takes no 'bw'; write link("10Mbit/s 20ms")""",
            'link(rate="1Mbit/s", loss="5%")': """takes no 'rate'; write link("1Mbit/s loss 5%")""",
            'link("20ms", queue=30)': """takes no 'queue'; write link("20ms queue 30")""",
            'link(perset="lte")': "takes no 'perset'; write preset=..",
            'link("20ms", bak="5ms")': "takes no 'bak'; write back=..",
            'link(colour="red")': """takes no 'colour'; write link("10Mbit/s 20ms loss 1%")""",
            'link(delay="20 min")': """takes no 'delay'; write link("10Mbit/s 20ms loss 1%")""",
            'link("10Mbit/s", "20ms", "loss 1%")': "has 3 texts, and takes one for the way there",
            'link("10Mbit/s", "20ms", back="5ms")': "has the way back twice",
            "link(20)": "takes texts, and 20 is none",
            "link()": "the mark link has no words of a link; write link(",
            "vary(dealy='5ms')": "the mark vary takes no 'dealy'; write delay",
            "vary('5ms')": "the mark vary takes spans by their names alone",
            'link(preset="ltee")': "'ltee': not a preset; write lte",
            'simulated("lte")': "takes options by name alone",
        }
        body = "".join(f"@pytest.mark.{mark}\ndef test_{number}(sim_net):\n    pass\n" for number, mark in enumerate(rows))
        done = self.run_pytest(body, "--strict-markers")
        self.assertEqual(done.counts, {"errors": len(rows)}, done.text)
        for mark, text in rows.items():
            with self.subTest(mark):
                self.assertIn(text, done.text)

    def test_a_mark_that_nothing_takes_is_told(self) -> None:
        done = self.run_pytest(
            """
            pytestmark = pytest.mark.link("20ms")

            def test_of_a_module():
                pass

            @pytest.mark.link("20ms")
            @pytest.mark.vary(delay="20ms")
            def test_of_its_own():
                pass
            """,
            "--strict-markers",
        )
        self.assertEqual(done.counts, {"passed": 2, "warnings": 2}, done.text)
        self.assertIn("the mark vary is of no effect: no fixture of the test is sim_net\n", done.text)
        self.assertIn("the mark link is of no effect: no fixture of the test is sim_net, udp_path or net", done.text)

    def test_a_failure_has_the_link(self) -> None:
        done = self.run_pytest(
            """
            async def test_all_come(sim_net):
                sim_net.path(sim_net.host("10.0.0.1"), sim_net.host("10.0.0.2"), "20ms plr 0.3", "20ms")
                assert await session(sim_net, 100) == 100
            """
        )
        self.assertEqual(done.counts, {"failed": 1}, done.text)
        section = done.text.partition("emulated link")[2]
        sent, lost = map(int, re.search(r"10\.0\.0\.1 > 10\.0\.0\.2: (\d+) sent, (\d+) lost, 0 met a full queue", section).groups())
        self.assertEqual(sent, 100)
        self.assertGreater(lost, 20)
        rows = re.findall(
            r"^  row  *(\d+), (\d+)\.000000000 s, 10\.0\.0\.1:49152 > 10\.0\.0\.2:9, (?:29|30) bytes: lost$", section, re.M
        )
        self.assertEqual(len(rows), 20)
        self.assertIn(f"  and {lost - 20} more\n", section)
        self.assertRegex(section, r"simulated time 100\.0\d+ s\nseed 1, lawful \d+: hinge look /.*/link\.history\n")

    def test_a_history_that_is_not_lawful_is_an_error(self) -> None:
        done = self.run_pytest(
            """
            async def test_it(sim_net):
                await session(sim_net)
                sim_net._emulator.history.add_advance(1, 0)
            """
        )
        self.assertEqual(done.counts.get("passed"), 1, done.text)
        self.assertEqual(done.counts.get("error"), 1, done.text)
        self.assertRegex(done.text, r"the history /.*/link\.history isn't lawful: ")

    def test_fixtures_that_are_coroutines(self) -> None:
        """Such fixtures run in their test's loop: with pytest-asyncio too, whose fixtures stay unchanged."""
        body = """
            import time
            ended = []

            @pytest.fixture
            async def server(sim_net):
                sim_net.path(sim_net.host("10.0.0.1"), sim_net.host("10.0.0.2"), "20ms")
                await sim_net.hosts["10.0.0.2"].endpoint(Echo, 9)
                await asyncio.sleep(5)
                yield sim_net.hosts["10.0.0.2"]
                ended.append(time.time())
                await asyncio.sleep(1)
                ended.append(time.time())

            @pytest.fixture
            async def moment(server):
                return time.monotonic()

            async def test_both(sim_net, moment):
                assert (moment, sim_net.seed) == (5, 1)

            async def test_without_the_network(server, moment):
                assert server.net.loop is asyncio.get_running_loop()
                assert time.monotonic() == moment

            def test_plain(server, moment):
                assert (server.name, moment) == ("10.0.0.2", 5)

            class TestOfAClass:
                @pytest.fixture
                async def own(self, sim_net):
                    await asyncio.sleep(2)
                    self.at = time.monotonic()
                    yield self.at

                async def test_method(self, sim_net, own):
                    assert own == self.at == 2

                async def test_method_without(self, own):
                    assert own == self.at == 2

            def test_ends():
                assert [round(it - ended[0]) for it in ended[:2]] == [0, 1] and len(ended) == 6
            """
        for words in ((), *(("-p", "pytest_asyncio.plugin", f"--asyncio-mode={mode}") for mode in ("strict", "auto"))):
            if words and lacking("pytest_asyncio"):
                continue
            done = self.run_pytest(body, *words)
            self.assertEqual((done.counts.get("passed"), done.status), (6, 0), done.text)

    def test_a_fixture_that_fails_or_yields_twice(self) -> None:
        done = self.run_pytest(
            """
            @pytest.fixture
            async def twice(sim_net):
                yield 1
                yield 2

            @pytest.fixture
            async def fails(sim_net):
                await asyncio.sleep(1)
                raise ValueError("not ready")

            async def test_twice(sim_net, twice):
                assert twice == 1

            async def test_fails(sim_net, fails):
                pass

            async def test_of_a_failure(sim_net, twice):
                assert twice == 2
            """
        )
        self.assertEqual({"passed": 1, "failed": 1, "errors": 2}, done.counts, done.text)
        self.assertIn("the fixture twice yields more than once", done.text)
        self.assertIn("ValueError: not ready", done.text)

    def test_a_report_that_fails_ends_no_session(self) -> None:
        done = self.run_pytest(
            """
            async def test_no_report(sim_net):
                sim_net.report = lambda: 1 / 0
                assert False

            def test_no_host(sim_net):
                sim_net.path(sim_net.host("10.0.0.1"), "10.0.0.2")

            def test_no_word(sim_net):
                sim_net.path(sim_net.host("10.0.0.1"), sim_net.host("10.0.0.2"), "8Mbps")

            async def test_next(sim_net):
                assert await session(sim_net, 1) == 1
            """
        )
        self.assertEqual(done.counts, {"passed": 1, "failed": 3}, done.text)
        self.assertIn("no report: ZeroDivisionError", done.text)
        self.assertIn("LineError: '8Mbps': not a bandwidth; write 8Mbit/s", done.text)
        self.assertIn("TypeError: a link is between two hosts, and '10.0.0.2' is none", done.text)

    def test_an_exception_that_nobody_takes_fails_its_test(self) -> None:
        done = self.run_pytest(
            """
            async def bad():
                raise ValueError("in the task")

            async def test_task(sim_net):
                sim_net.host("10.0.0.1").create_task(bad(), name="server")
                await asyncio.sleep(1)

            async def test_callback(sim_net):
                asyncio.get_running_loop().call_soon(int, "x")
                await asyncio.sleep(1)

            async def test_taken(sim_net):
                with pytest.raises(ValueError):
                    await sim_net.host("10.0.0.1").create_task(bad())
            """
        )
        self.assertEqual((done.counts["passed"], done.counts["errors"]), (3, 2), done.text)
        self.assertIn("nobody took an exception: server on 10.0.0.1: ValueError('in the task')", done.text)
        self.assertIn("nobody took an exception: Exception in callback", done.text)
