"""The two C libraries, by the structures and the functions that python/headers.py reads in c/include."""
import os
from ctypes import CDLL, POINTER, c_char_p, c_uint8

from .paths import module_alone

NAME = "libcherisim.so"

calls = module_alone("_calls")
Asked, Cap, Console, Fields, Halted, Handle = calls.Asked, calls.Cap, calls.Console, calls.Fields, calls.Halted, calls.Handle
Insn, Number, Ran, Sent, Timer, Word = calls.Insn, calls.Number, calls.Ran, calls.Sent, calls.Timer, calls.Word
# A number of 65 bits or more; a capability's word, and what tells it from others; the end of its bounds.
Number.__int__ = lambda number: number.high << 64 | number.low
Cap.word = lambda cap: Word(cap.address, cap.upper)
Cap.key = lambda cap: (cap.upper, cap.address, cap.tag)
Fields.top = lambda fields: fields.top_high << 64 | fields.top_low


def loaded(folder):
    """The libraries, as one shared object in a folder exports both. Bytes are given as arrays of numbers, but for texts of words."""
    library = CDLL(os.path.join(folder, NAME))
    for name, (answer, *taken) in calls.CALLS.items():
        function = getattr(library, name)
        function.restype = answer
        function.argtypes = [POINTER(c_uint8) if it is c_char_p and not name.endswith("disassemble") else it for it in taken]
    return library
