#!/usr/bin/env python3
"""Makes cherisim/_calls.py of the headers in c/include: structures, constants, and what each function answers and is given.

    python3 python/headers.py          writes the file
    python3 python/headers.py --check  says whether it is what the headers give, with status 1 where not
"""
import os
import re
import sys

HERE = os.path.dirname(os.path.abspath(__file__))
HEADERS = [os.path.join(HERE, "..", "c", "include", name) for name in ("cheri_caps.h", "cherisim.h")]
MADE = os.path.join(HERE, "cherisim", "_calls.py")

NUMBERS = {"bool": "c_bool", "size_t": "c_size_t", "cherisim_status": "c_uint32", "void": "None",
           **{f"uint{bits}_t": f"c_uint{bits}" for bits in (8, 16, 32, 64)}}
HANDLE = "Handle"                # the structure that bears the library's own name
OTHER_NAMES = {"from": "from_"}  # fields whose names Python forbids
WIDTH = 138
HEAD = '''"""Structures, constants and functions of cherisim.h and cheri_caps.h: made of them by python/headers.py."""
import ctypes
from ctypes import POINTER, c_bool, c_char_p, c_size_t, c_uint8, c_uint16, c_uint32, c_uint64, c_void_p
from typing import Any, Dict, Tuple

'''


def name_of(kind):
    """The name of a structure in Python: cheri_word_t is Word."""
    return kind[:-2].partition("_")[2].capitalize() or HANDLE


def type_of(words, structures):
    """The type in ctypes of a field, an operand or an answer, whose name may stand after it: bytes and text go by c_char_p."""
    found = re.fullmatch(r"(?:const )?(\w+)\s*(\*?)\s*\w*(\[\d+\])?", words.strip())
    kind, points = found[1], bool(found[2] or found[3])
    if kind in ("char", "uint8_t") and points:
        return "c_char_p"
    if kind == "void" and points:
        return "c_void_p"
    plain = NUMBERS.get(kind) or structures[kind]
    return f"POINTER({plain})" if points else plain


def fields_of(text, structures):
    """The fields of a structure, each with its type."""
    found = []
    for part in filter(None, map(str.strip, text.split(";"))):
        kind, _, names = part.rpartition(" ") if "," not in part else part.partition(" ")
        for name in map(str.strip, names.split(",")):
            bare = name.lstrip("*")
            found.append((OTHER_NAMES.get(bare, bare), type_of(kind + (" *" if name != bare else ""), structures)))
    return found


def listed(begin, items, end):
    """Items between two texts, in lines of at most WIDTH characters."""
    lines = [begin]
    for item in [*(f"{item}, " for item in items[:-1]), items[-1] + end]:
        if len(lines[-1] + item) > WIDTH:
            lines.append(" " * len(begin))
        lines[-1] += item
    return [line.rstrip() for line in lines]


def read():
    """The headers without comments and lines of the preprocessor."""
    text = ""
    for path in HEADERS:
        with open(path, encoding="utf-8") as file:
            text += file.read()
    return re.sub(r"^#.*$", "", re.sub(r"/\*.*?\*/", "", text, flags=re.DOTALL), flags=re.MULTILINE)


def made():
    """The file."""
    text, structures, lines = read(), {}, []
    for fields, kind, other in re.findall(r"typedef (?:struct \{(.*?)\} (\w+)|\w+ (\w+));", text, re.DOTALL):
        if kind:
            structures[kind] = name_of(kind)
            rows = [f'("{name}", {it})' for name, it in fields_of(fields, structures)]
            lines += ["", f"class {structures[kind]}(ctypes.Structure):", *listed("    _fields_ = [", rows, "]"), ""]
        elif other.endswith("_cap_t"):
            structures[other] = structures["cheri_cap_t"]
    constants = [f'"{name}": {value}' for name, value in re.findall(r"^\s+CHERISIM_(\w+) = (\d+)", text, re.MULTILINE)]
    lines += ["", *listed("CONSTANTS: Dict[str, int] = {", constants, "}")]
    lines += ["CALLS: Dict[str, Tuple[Any, ...]] = {  # what each answers, and what it is given"]
    for answer, name, given in re.findall(r"^(\w+) (cheri\w+)\((.*?)\);", text, re.MULTILINE | re.DOTALL):
        operands = [] if given == "void" else [type_of(" ".join(it.split()), structures) for it in given.split(",")]
        lines += listed(f'    "{name}": (', [type_of(answer, structures), *operands], ")," if operands else ",),")
    return HEAD + "\n".join([*lines, "}", ""])


def main(given):
    text = made()
    if given == ["--check"]:
        with open(MADE, encoding="utf-8") as file:
            same = file.read() == text
        print(f"{os.path.relpath(MADE)}: " + ("what the headers give" if same else "not what the headers give"))
        return int(not same)
    with open(MADE, "w", encoding="utf-8") as file:
        file.write(text)
    return 0


if __name__ == "__main__":
    sys.exit(main(sys.argv[1:]))
