"""Each test of a library runs by seeds 1 to `--seeds`."""

import pytest


def pytest_addoption(parser: pytest.Parser) -> None:
    parser.addoption("--seeds", type=int, default=1)


def pytest_generate_tests(metafunc: pytest.Metafunc) -> None:
    metafunc.parametrize("link_seed", range(1, metafunc.config.getoption("--seeds") + 1))


@pytest.fixture
def pair(sim_net):
    """Two hosts with a path between them."""
    client = sim_net.host("10.0.0.1", "fd00::1")
    server = sim_net.host("10.0.0.2", "fd00::2", name="server.test")
    sim_net.path(client, server)
    return client, server
