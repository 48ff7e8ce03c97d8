"""Runs asynchronous fixtures and tests in simulated time, if the test has the fixture sim_net."""

from __future__ import annotations

import functools
import inspect
from typing import TYPE_CHECKING, Any, AsyncGenerator, Callable, Generator, Optional

import pytest

if TYPE_CHECKING:
    from hingetulip.aio import Network

NETWORK = "sim_net"


def asynchronous(call: Callable[..., Any]) -> Optional[Callable[..., Any]]:
    """Returns the function of an asynchronous fixture or test (a coroutine function or asynchronous generator), without other
    plugins' wrappers."""
    result = inspect.unwrap(call)
    return result if inspect.iscoroutinefunction(result) or inspect.isasyncgenfunction(result) else None


def bound(call: Callable[..., Any], instance: object) -> Callable[..., Any]:
    """Returns a fixture's method, bound to the test's object, if the method's class is that of the test; returns any other function
    unchanged."""
    owner = getattr(call, "__self__", None)
    if owner is None or not isinstance(instance, type(owner)):
        return call
    return getattr(call, "__func__").__get__(instance)  # type: ignore[no-any-return]


def synchronous(call: Callable[..., Any], net: Network) -> Callable[..., Any]:
    """Returns a synchronous function or generator that runs an asynchronous fixture in the network."""
    names = inspect.signature(call).parameters

    @functools.wraps(call)
    def function(**keywords: object) -> object:
        return net.run(call(**{name: keywords[name] for name in names}))

    @functools.wraps(call)
    def generator(**keywords: object) -> Generator[object, None, None]:
        generator_of_loop: AsyncGenerator[object, None] = call(**{name: keywords[name] for name in names})
        yield net.run(step(generator_of_loop))
        if not net.loop.is_closed():  # else the end of the network has ended the generator
            try:
                net.run(step(generator_of_loop))
            except StopAsyncIteration:
                return
            pytest.fail(f"the fixture {call.__name__} yields more than once")

    return generator if inspect.isasyncgenfunction(call) else function


async def step(generator_of_loop: AsyncGenerator[object, None]) -> object:
    return await generator_of_loop.__anext__()


@pytest.hookimpl(hookwrapper=True)  # type: ignore[misc]
def pytest_fixture_setup(fixturedef: Any, request: pytest.FixtureRequest) -> Generator[None, None, None]:
    """Runs an asynchronous fixture in the network of the test's sim_net, if the test has one: replaces the fixture's function
    during the setup. Fixtures that tests share (with another scope than `function`) stay asynchronous."""
    own_function = fixturedef.func
    call = asynchronous(own_function)
    if call is not None and fixturedef.scope == "function" and NETWORK in request.fixturenames:
        fixturedef.func = synchronous(bound(call, request.instance), request.getfixturevalue(NETWORK))
    yield
    fixturedef.func = own_function


@pytest.hookimpl(tryfirst=True)  # type: ignore[misc]
def pytest_pyfunc_call(pyfuncitem: pytest.Function) -> Optional[bool]:
    """Runs an asynchronous test in the network of sim_net, if only a fixture of the test uses sim_net; returns whether to leave out
    pytest's call."""
    call = asynchronous(pyfuncitem.obj)
    if call is None or NETWORK not in pyfuncitem.funcargs or NETWORK in inspect.signature(call).parameters:
        return None
    names = [name for name in inspect.signature(call).parameters if name in pyfuncitem.funcargs]
    net: Any = pyfuncitem.funcargs[NETWORK]
    net.run(call(**{name: pyfuncitem.funcargs[name] for name in names}))
    return True
