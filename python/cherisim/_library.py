"""What crosses to C: the structures of cherisim.h and cheri_caps.h, the types of their functions, and where the library is."""
from __future__ import annotations

import ctypes
import os

from ._calls import (CALLS, CONSTANTS, Answer, Asked, Breach, Cap, Console, Door, Fields, Given, Halted, Handle, Insn, Link, Member, Number,
                     Place, Question, Ran, Sent, Stepped, Timer, Timetable, Word)

UNSEALED, SENTRY = 0x3FFFF, 0x3FFFE
"""The object types of what is not sealed, and of a sentry."""
RESERVED = 0x3FFFC
"""The first object type that nothing seals with."""
NULL_UPPER = 0x1FFFFC018004
"""The upper half of null, and so of each number in a register."""


def found() -> ctypes.CDLL:
    """The library, with the types of its calls."""
    here = os.path.dirname(os.path.abspath(__file__))
    places = [os.path.join(here, "libcherisim.so"), os.path.join(here, "..", "..", "c", "build", "libcherisim.so")]
    name = os.environ.get("CHERISIM_LIB") or next(filter(os.path.exists, places), "libcherisim.so.1")
    try:
        library = ctypes.CDLL(name)
    except OSError as error:
        raise ImportError(f"libcherisim is not found: build it by `make -C c`, or name it in CHERISIM_LIB ({error})") from None
    for name, (answer, *given) in CALLS.items():
        call = getattr(library, name)
        call.restype, call.argtypes = answer, given
    if library.cherisim_version() < 1:
        raise ImportError(f"libcherisim has version {library.cherisim_version()} of its interface, and version 1 is needed")
    return library


lib = found()
