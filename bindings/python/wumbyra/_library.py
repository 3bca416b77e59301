"""The shared library: where it is looked for, and its calls as include/wumbyra.h declares them."""

from __future__ import annotations

import ctypes
import os
import pathlib
from typing import Any

# The calls declared here are those of version 1. They are all there from this minor number on.
MAJOR, MINOR = 1, 7
INSIDE = pathlib.Path(__file__).resolve().with_name("libwumbyra.so")
INSTALLED = [f"libwumbyra.so.{MAJOR}", "libwumbyra.so"]


def _loaded(name: str, what: str) -> ctypes.CDLL:
    try:
        return ctypes.CDLL(name)
    except OSError as error:
        raise ImportError(f"{what} cannot be loaded: {error}") from None


def _opened() -> ctypes.CDLL:
    """The file that WUMBYRA_LIBRARY names; else the one that was installed with this package; else what the system's loader finds."""
    named = os.environ.get("WUMBYRA_LIBRARY")
    if named:
        return _loaded(named, "WUMBYRA_LIBRARY names a library that")
    if INSIDE.exists():
        return _loaded(str(INSIDE), "the library that was installed with this package")
    said = ""
    for name in INSTALLED:
        try:
            return ctypes.CDLL(name)
        except OSError as error:
            said = said or str(error)
    raise ImportError(
        "libwumbyra.so is not found: install this package with `pip install bindings/python` in the repository of Wumbyra, "
        f"or let WUMBYRA_LIBRARY name the file; the system's loader says: {said}"
    )


def _call(library: ctypes.CDLL, name: str) -> Any:
    try:
        return getattr(library, name)
    except AttributeError:
        raise ImportError(f"{library._name} is no library of Wumbyra, or not all of it: it has no {name}") from None


def _declared(library: ctypes.CDLL) -> ctypes.CDLL:
    version = _call(library, "wumbyra_version")
    version.argtypes = []
    version.restype = ctypes.c_uint32
    found = version()
    if found // 10000 != MAJOR or found // 100 % 100 < MINOR:
        raise ImportError(f"this package is for version {MAJOR} of the library from {MAJOR}.{MINOR} on, and the one found says {found}")
    buffer = [ctypes.c_void_p, ctypes.c_size_t]
    number = [ctypes.c_uint32]
    for name, parameters in {
        "wumbyra_load": buffer,
        "wumbyra_parse": 4 * buffer,
        "wumbyra_locate": 2 * buffer,
        "wumbyra_flatten": 2 * buffer + number + buffer,
        "wumbyra_canonicalize": 2 * buffer + number + 3 * buffer,
        "wumbyra_span": 3 * buffer + 3 * number,
        "wumbyra_total": 2 * buffer + 2 * number,
        "wumbyra_totals": 2 * buffer + number + buffer,
        "wumbyra_term_totals": 2 * buffer + 4 * number + buffer,
        "wumbyra_desk_open": 3 * buffer,
        "wumbyra_desk_put": 5 * buffer,
        "wumbyra_desk_withdraw": 3 * buffer,
    }.items():
        function = _call(library, name)
        function.argtypes = parameters
        function.restype = ctypes.c_uint64
    return library


LIBRARY = _declared(_opened())
