"""Makes C functions of the system behave differently in a run's threads.

The function object itself changes during a run, rather than a name for the function. So every reference, however old, calls the
run's version in the run's threads, and the system's version in other threads. Names stay unchanged, even if a test has replaced a
name's function.
"""

from __future__ import annotations

import functools
import gc
import os
import sys
import threading
from contextlib import contextmanager
from ctypes import Structure, addressof, c_char_p, c_int, c_void_p, cast, py_object, pythonapi, sizeof
from types import BuiltinFunctionType, ClassMethodDescriptorType, MethodDescriptorType, ModuleType
from typing import Any, Callable, Iterator, Mapping, Optional

Function = Callable[..., Any]
Either = Callable[[Function], Function]  # returns the run's version of a function, from the system's version
VARARGS, KEYWORDS, OF_CLASS = 1, 2, 0x200  # METH_VARARGS, METH_KEYWORDS, METH_METHOD
HEAD, FIELDS = object.__basicsize__, 5  # the bytes before a C function's fields, and their number
METHOD, OBJECT, MODULE, FAST = 0, 1, 2, 4  # the places of fields; field 3 contains the weak references, and FAST the fast call
IN_C = ClassMethodDescriptorType, MethodDescriptorType
WITH_TYPES = "_thread", "_queue", "select"  # modules with types whose methods change; each copy of such a module has separate types

new_function = pythonapi.PyCFunction_NewEx
new_function.restype, new_function.argtypes = py_object, [c_void_p] * 3
call = cast(pythonapi.PyObject_Call, c_void_p).value
for count in (pythonapi.Py_IncRef, pythonapi.Py_DecRef, pythonapi.PyType_Modified):
    count.argtypes, count.restype = [py_object], None


of_run: set[int] = set()  # the threads of the run that is under way
os.register_at_fork(
    after_in_child=of_run.clear
)  # otherwise a forked process, which inherits the pipes, would take turns in the run


class Method(Structure):
    """CPython's struct PyMethodDef."""

    _fields_ = [("name", c_char_p), ("function", c_void_p), ("flags", c_int), ("doc", c_char_p)]


def fields_of(function: object) -> Any:
    """Returns the fields of a C function, as an array over the function's memory."""
    return (c_void_p * FIELDS).from_address(id(function) + HEAD)


def is_known() -> bool:
    """Returns whether C functions have the expected memory layout, and no other thread can call one while it changes."""
    return (
        getattr(sys, "_is_gil_enabled", lambda: True)()
        and BuiltinFunctionType.__basicsize__ == HEAD + FIELDS * sizeof(c_void_p)
        and Method.from_address(fields_of(len)[METHOD]).name == b"len"
    )


class SwitchableFunction:
    """A C function whose fields a run may change, with a copy of the original."""

    def __init__(self, function: object) -> None:
        self.function = function  # a reference, since the fields are in the function's memory
        self.fields = fields_of(function)
        self.original_fields = list(self.fields)
        self.own: Function = new_function(*self.original_fields[: MODULE + 1])  # a copy of the function, which no run changes
        self.method = Method.from_buffer_copy(Method.from_address(self.original_fields[METHOD]))
        self.method.function = call
        self.method.flags = VARARGS | KEYWORDS
        self.version: Optional[Function] = None  # a reference to the last run's version, in which another thread may still be


known: dict[tuple[str, str], dict[int, Any]] = {}  # C functions, by the names of module and function, and by the module's identity
kinds: dict[tuple[str, str], set[type]] = {}  # C types, by the names of module and type
switchables: dict[int, SwitchableFunction] = {}  # the functions that runs may change, by their identities
switchers: list[Callable[[], None]] = []  # the function that changes the copies that a run loads, if a run is under way


def note(thing: Any) -> None:
    """Adds an object to the known C functions or types, if it is one. A function that a run has changed belongs to no module
    meanwhile, and is known already."""
    if type(thing) is BuiltinFunctionType and isinstance(thing.__self__, ModuleType):
        module = thing.__self__
        known.setdefault((module.__name__, thing.__name__), {}).setdefault(id(module), thing)
    elif type(thing) is type and thing.__module__ in WITH_TYPES:
        kinds.setdefault((thing.__module__, thing.__name__), set()).add(thing)


@functools.lru_cache(1)
def note_all() -> None:
    """Adds all C functions and types that exist, again after each import. Libraries such as eventlet load a second copy of a
    module, to have its original functions."""
    for thing in gc.get_objects():
        note(thing)


def switch_copy(name: str) -> None:
    """Changes the C functions of a newly loaded module with this name, if the module is a copy of a known module."""
    if any(name == module for module, _ in (*known, *kinds)):
        note_all.cache_clear()
        for switch_all in switchers:
            switch_all()


def switchable(module: ModuleType, name: str) -> list[SwitchableFunction]:
    """Returns the C functions with a name in a module and in its copies, even if the name now refers to another function. Omits
    functions that can't be changed."""
    note_all()
    note(getattr(module, name, None))
    functions = known.get((module.__name__, name), {}).values()
    for function in functions:
        if id(function) not in switchables and not Method.from_address(fields_of(function)[METHOD]).flags & OF_CLASS:
            switchables[id(function)] = SwitchableFunction(function)
    return [switchables[id(function)] for function in functions if id(function) in switchables]


def own_of(module: ModuleType, name: str) -> Function:
    """Returns a copy of a module's function, which no run changes."""
    functions = switchable(module, name)
    own: Function = functions[0].own if functions else getattr(module, name)
    return own


def of_thread(own: Function, in_run: Either) -> Function:
    """Returns a function that calls the run's version in the run's threads, and the system's version (`own`) in others."""
    version, ident, threads = in_run(own), threading.get_ident, of_run  # local names, which are faster

    def function(*arguments: Any, **keywords: Any) -> Any:
        return (version if ident() in threads else own)(*arguments, **keywords)

    return function


def switch_function(function: SwitchableFunction, in_run: Either) -> Callable[[], None]:
    """Makes a C function call the run's version in the run's threads; returns a function that restores the original."""
    fields, originals = function.fields, function.original_fields
    version = of_thread(function.own, in_run)
    function.version = version
    pythonapi.Py_IncRef(version)  # the field OBJECT refers to the version from now on
    fields[METHOD], fields[OBJECT], fields[FAST] = addressof(function.method), id(version), None

    def back() -> None:
        for place in (METHOD, OBJECT, FAST):
            fields[place] = originals[place]
        pythonapi.Py_DecRef(version)

    return back


def bound(own: ClassMethodDescriptorType, kind: type, *arguments: Any, **keywords: Any) -> Any:
    """Returns the result of calling a C class method for a class."""
    return own.__get__(None, kind)(*arguments, **keywords)


def switch_method(kind: type, name: str, in_run: Either) -> Callable[[], None]:
    """Replaces a method of a C type by a method that calls the run's version in the run's threads; returns a function that restores
    the original."""
    (names,) = gc.get_referents(kind.__dict__)
    own = names[name]

    def put(method: Any) -> None:
        names[name] = method
        pythonapi.PyType_Modified(kind)

    if isinstance(own, ClassMethodDescriptorType):
        put(classmethod(of_thread(functools.partial(bound, own), in_run)))
    else:
        put(of_thread(own, in_run))
    return functools.partial(put, own)


def in_c(place: Any, name: str) -> Any:
    """Returns the C type that defines a method, which may be a base class of `place`; `place` itself if there is no such type."""
    for kind in getattr(place, "__mro__", ()):
        if isinstance(vars(kind).get(name), IN_C):
            return kind
    return place


@contextmanager
def switched(functions: Mapping[tuple[Any, str], Either]) -> Iterator[None]:
    """Replaces C functions and C types' methods in the run's threads, within the context. `functions` contains the makers of the
    run's versions, by module or type and name. Copies of modules that the run loads change, too."""
    backs: dict[object, Callable[[], None]] = {}  # functions that restore the originals
    wanted = [(in_c(place, name), name, in_run) for (place, name), in_run in functions.items()]

    def switch_functions(module: ModuleType, name: str, in_run: Either) -> None:
        for function in switchable(module, name):
            if id(function) not in backs:
                backs[id(function)] = switch_function(function, in_run)

    def switch_methods(place: Any, name: str, in_run: Either) -> None:
        for kind in {place, *kinds.get((place.__module__, place.__name__), ())}:
            if (kind, name) not in backs:
                backs[kind, name] = switch_method(kind, name, in_run)

    def switch_all() -> None:
        note_all()
        for place, name, in_run in wanted:
            if isinstance(place, ModuleType):
                switch_functions(place, name, in_run)
            else:
                switch_methods(place, name, in_run)

    switchers.append(switch_all)
    try:
        switch_all()
        yield
    finally:
        switchers.remove(switch_all)
        for back in backs.values():
            back()
