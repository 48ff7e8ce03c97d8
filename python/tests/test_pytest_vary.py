"""The pytest plugin's reports on values that a seed varied, on marks without effect, and on real calls."""


from pytest_runs import Runs


class OfTests(Runs):
    def test_what_the_seed_drew_is_shrunk(self) -> None:
        done = self.run_pytest(
            """
            @pytest.mark.vary(jitter="100ms")
            @pytest.mark.link("20ms")
            async def test_in_order(sim_net):
                assert await session(sim_net, 9) == 99

            @pytest.mark.vary(cuts="1..3s")
            @pytest.mark.link("20ms")
            async def test_cut(sim_net):
                assert await session(sim_net, 30) == 30
            """,
            "--link-shrink",
        )
        assert {"failed": 2} == done.counts, done.text
        self.assertRegex(done.text, r"drawn: 10.0.0.1 > 10.0.0.2 packet 1 late \d+ms\n")
        self.assertRegex(done.text, r"cut of 10.0.0.\d at .* s for .* s: it met \d+ packet")
        self.assertRegex(done.text, r"packet \d+ lost\nfails by 1 of \d+ faults, found in")

    def test_what_met_nothing_fails_a_test(self) -> None:
        done = self.run_pytest(
            """
            @pytest.mark.link("20ms")
            async def test_cut(sim_net):
                await session(sim_net, 3)
                sim_net.cut("10.0.0.1", 1)

            @pytest.mark.vary(jitter="80ms", phase="1s", cuts="1..3s", crashes="1s")
            async def test_vary(sim_net):
                sim_net.path(sim_net.host("10.0.0.1"), sim_net.host("10.0.0.2"))
                await asyncio.sleep(9)

            @pytest.mark.link("20ms loss 5%")
            async def test_other_link(sim_net):
                sim_net.path(sim_net.host("10.0.0.1"), sim_net.host("10.0.0.2"), "5ms")
                await session(sim_net, 3)

            @pytest.mark.link("20ms")
            async def test_idle_link(sim_net):
                sim_net.path(sim_net.host("10.0.0.1"), sim_net.host("10.0.0.2"))

            @pytest.mark.link("20ms")
            def test_no_path(udp_path):
                pass

            @pytest.mark.vary(cuts="1..3s", crashes="1..2s", skew="2s", duplicates="100%", one_way_cuts="1s", holds="1..2s")
            @pytest.mark.link("20ms")
            async def test_all(sim_net):
                import time

                async def program():
                    time.time()
                    await asyncio.sleep(99)

                sim_net.host("10.0.0.2").boot(program)
                await session(sim_net, 9)

            @pytest.mark.vary(skew="2s")
            async def test_no_look_at_a_clock(sim_net):
                await session(sim_net, 3)
            """
        )
        assert {"passed": 2, "failed": 5, "error": 1} == done.counts, done.text
        for text in (
            r"what met nothing:\ncut of 10.0.0.1 at .* s for 1 s: it met no packet\n",
            "the mark vary: jitter varied nothing: no packet came to a link\n",
            "the mark vary: phase varied nothing: no task is a host's\n",
            "the mark vary: skew varied nothing: no task of a host looked at `time.time\\(\\)`\n",
            "the mark vary: crashes varied nothing: there is no host with a program of `host.boot`\n",
            "the mark link: no link of the test has its words\n",
            "the mark link: no packet came to the links with its words\n",
            "the mark link: the test made no link\n",
        ):
            self.assertRegex(done.text, text)
        assert "cuts varied nothing" not in done.text

    def test_a_mark_of_a_module_that_meets_nothing_in_all_its_tests(self) -> None:
        text = """
            pytestmark = [pytest.mark.link("20ms"), pytest.mark.vary(jitter="80ms")]

            async def test_of_no_link(sim_net):
                pass

            async def test_other_link(sim_net):
                sim_net.path(sim_net.host("10.0.0.1"), sim_net.host("10.0.0.2"), "5ms")
                await session(sim_net, 3)
            """
        done = self.run_pytest(text)
        assert {"passed": 2} == done.counts, done.text
        self.assertRegex(
            done.text, r"test_\S+\.py: what met nothing in all its tests: the mark link: no link of the test has its words\n"
        )
        assert "jitter varied nothing" not in done.text
        assert done.status == 1
        met = self.run_pytest(text + "\n            async def test_it(sim_net):\n                await session(sim_net, 3)\n")
        assert (met.counts, met.status) == ({"passed": 3}, 0), met.text

    def test_what_was_real_fails_a_test_that_no_mark_allows(self) -> None:
        done = self.run_pytest(
            """
            import subprocess
            from hingetulip import aio

            async def test_simulated(sim_net):
                await session(sim_net, 3)

            @pytest.mark.real("subprocess")
            async def test_allowed(sim_net):
                subprocess.run(["true"])

            async def real():
                subprocess.run(["true"])

            async def test_real(sim_net):
                await real()

            def test_without_the_fixture():
                aio.run(real())

            @pytest.mark.real("libpq")
            async def test_of_no_call(sim_net):
                with pytest.raises(aio.RealTimeError), socket.socket() as own:
                    own.connect(("127.0.0.1", 9))

            @pytest.mark.real()
            async def test_of_no_name(sim_net):
                pass
            """,
            "-rA",
            "--strict-markers",
        )
        assert {"passed": 3, "failed": 2, "error": 1, "warning": 1} == done.counts, done.text
        self.assertRegex(done.text, r"- real -+\n0 calls were real\n")
        self.assertRegex(done.text, r"\n5 in simulated time: 3 calls were real: subprocess.Popen 3; 1 was refused\n")
        assert done.text.count("1 call was real: subprocess.Popen 1; if that may be, write @pytest.mark.real('subprocess.") == 2
        assert "the mark real allows 'libpq', and no call that was real has that name" in done.text
        assert "the mark real takes names of what may be real" in done.text

    def test_a_search_finds_what_neither_the_links_nor_the_seed_do(self) -> None:
        done = self.run_pytest(
            """
            @pytest.mark.link("20ms")
            @pytest.mark.parametrize("least", [9, 0])
            async def test_all_come(sim_net, least):
                assert await session(sim_net, 9) >= least

            async def test_of_no_packet(sim_net):
                pass

            @pytest.mark.link("20ms")
            async def test_of_a_clock(sim_net):
                await session(sim_net, 1)
                import time
                async def ahead():
                    return time.time() - sim_net.start - asyncio.get_running_loop().time()
                assert await sim_net.host("10.0.0.2").create_task(ahead()) < 0.1
            """,
            "--link-search",
            "--link-runs=9",
        )
        assert {"passed": 2, "failed": 2} == done.counts, done.text
        self.assertRegex(done.text, r"test_of_a_clock: at 0s skew 10.0.0.2 \+[\d.]+s: by seed \d .*, \d+ runs\n")
        self.assertRegex(done.text, r"- least faults -+\n10.0.0.\d > 10.0.0.\d packet \d lost\nfound by .* in \d+ runs\n")
        self.assertRegex(done.text, r"test_all_come\[9\]: 10.0.0.\d > 10.0.0.\d packet \d lost: by .*, \d+ runs\n")
        self.assertRegex(done.text, r"test_all_come\[0\]: no failure in \d+ runs\n")
        assert "test_of_no_packet: no failure in 0 runs\n" in done.text

    def test_the_table_of_a_sweep(self) -> None:
        done = self.run_pytest(
            """
            @pytest.mark.vary(delay="1..9ms")
            @pytest.mark.parametrize("link_seed", range(1, 21))
            @pytest.mark.parametrize("of", [session])
            @pytest.mark.link("20ms plr 0.01")
            async def test_swept(sim_net, of):
                assert await of(sim_net) == 60 and sim_net.links[sim_net.host("10.0.0.1"), sim_net.host("10.0.0.2")].delay < 10**7
            """,
            "--strict-markers",
        )
        self.assertRegex(
            done.text,
            r"\n\S+::test_swept with of <function session>: (\d+) of 20 seeds failed: [\d, ]+( and \d more)? \(delay 1\.\.9ms\)\n",
        )
        assert "in no test was a packet" not in done.text

    def test_a_part_of_a_network_that_no_packet_meets_is_told(self) -> None:
        done = self.run_pytest(
            """
            def three(net):
                hosts = [net.host(f"10.0.0.{number}") for number in (1, 2, 3)]
                for host in hosts[:2]:
                    net.path(host, hosts[2], "1ms")
                return hosts

            async def test_no_packet(sim_net):
                three(sim_net)

            async def test_parts(sim_net):
                one, other, third = three(sim_net)
                link, _ = sim_net.path(one, other, "20ms")
                link.change("9ms")
                sim_net.link(third, sim_net.host("10.0.0.4"), "5ms", jitter=lambda it: 9)
                await session(sim_net, 3)
                link.change("5ms")
                link.change("20ms")
                sim_net.route(one, other, via=third)

            async def test_met(sim_net):
                one, other, third = three(sim_net)
                sim_net.route(one, other, via=third)
                await session(sim_net, 3)
            """
        )
        assert {"passed": 3, "warnings": 4} == done.counts, done.text
        for text in (
            "no packet came to a link",
            "no packet met the change of 10.0.0.1 > 10.0.0.2 at 3 s",
            "no packet met the jitter of 10.0.0.3 > 10.0.0.4",
            "no packet met the route from 10.0.0.1 to 10.0.0.2",
        ):
            assert f"PytestWarning: {text}\n" in done.text

    def test_that_nothing_ever_happened(self) -> None:
        done = self.run_pytest("async def test_it(sim_net):\n    assert await session(sim_net, 3) == 3\n")
        assert "\nin no test was a packet lost, late or out of order: " in done.text
