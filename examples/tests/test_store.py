"""A store on a host of its own that is cut off and comes back, in real time: no answer, and then the right one."""

import shutil

import pytest

pytestmark = pytest.mark.skipif(shutil.which("redis-server") is None, reason="no redis-server")


@pytest.fixture
def store(net):
    net.host("store", "exec redis-server --bind 0.0.0.0 --protected-mode no --save '' --dir /tmp", port=6379)
    net.host("client")
    net.link("client", "store", "10Mbit/s 20ms")

    def ask(words):
        """The answer, or nothing after two seconds."""
        return net.run("client", f"timeout 2 redis-cli -h store {words}", check=False).stdout.strip()

    return ask


def test_a_store_that_is_cut_off(net, store):
    assert store("set key value") == "OK"
    net.cut("store")
    assert store("get key") == ""
    net.heal("store")
    assert store("get key") == "value"


def test_a_slow_link(net, store):
    net.change("client", "store", "500Kbit/s 100ms queue 20")
    assert store("eval \"return string.rep('x', 50000)\" 0") == "x" * 50000
    ways = net.status()["ways"]
    assert ways[1]["sent_bytes"] > 50000 and ways[1]["full"] == 0
