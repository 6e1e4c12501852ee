"""What the tests share: where things are, and images by the grammar of docs/ASSEMBLY.md."""
import contextlib
import io
import os
import re
import shutil
import struct
import subprocess
import sys
import unittest

TOP = os.path.abspath(os.path.join(os.path.dirname(os.path.abspath(__file__)), "..", ".."))
PROGRAM = os.environ.get("CHERISIM_PROGRAM") or os.path.join(TOP, "crates", "cherisim", "out", "cherisim")
NO_PROGRAM = f"{os.path.relpath(PROGRAM, TOP)} is not built"
sys.path.insert(0, os.path.join(TOP, "python"))
sys.path += [os.path.join(TOP, "python", "examples"), os.path.join(TOP, "tools")]

RAM, PAGE = 0x80000000, 4096
# lui a1, 0x10000; addi a0, zero, 65; sb a0, 0(a1); lui a1, 0x100; sd zero, 0(a1): sends A, and halts with 0
FIRST = struct.pack("<5I", 0x100005B7, 0x04100513, 0x00A58023, 0x001005B7, 0x0005B023)


GCC = "riscv64-unknown-elf-gcc"
FLAGS = ["-march=rv64im", "-mabi=lp64", "-mcmodel=medany", "-ffreestanding", "-nostdlib"]

MISSING = set()  # the programs of which a line said that they are not installed


def needs(*programs):
    """Skips a test where one of these programs isn't installed; a line says so, once."""
    missing = [it for it in programs if not shutil.which(it)]
    for it in set(missing) - MISSING:
        print(f"skipped: {it} is not installed", flush=True)
    MISSING.update(missing)
    return unittest.skipIf(missing, f"not installed: {', '.join(missing)}")


def said(call, *given):
    """What a command answers, and what it prints."""
    with contextlib.redirect_stdout(io.StringIO()) as out:
        status = call(*given)
    return status, out.getvalue()


def has_program():
    return os.path.exists(PROGRAM)


def assembled(room, name):
    """An example's image, its labels and its lines, as the program writes them into a folder."""
    made = [os.path.join(room, f"{name}.{kind}") for kind in ("img", "sym", "lines")]
    words = [PROGRAM, "asm", os.path.join(TOP, "examples", f"{name}.s"), made[0], "--symbols", made[1], "--lines", made[2]]
    subprocess.run(words, check=True)
    return made


def compiled(room, sources, script, *words):
    """The ELF of C sources in a folder, its bytes from RAM's beginning on, and its labels as `nm` prints them."""
    table, flat, names = (os.path.join(room, name) for name in ("x.elf", "x.bin", "x.sym"))
    subprocess.run([GCC, *FLAGS, *words, "-T", script, "-o", table, *sources], check=True)
    subprocess.run([GCC.replace("gcc", "objcopy"), "-O", "binary", table, flat], check=True)
    with open(names, "wb") as file:
        subprocess.run([GCC.replace("gcc", "nm"), table], stdout=file, check=True)
    return table, flat, names


def read(*path):
    with open(os.path.join(TOP, *path), "rb") as file:
        return file.read()


def image(sections, *, version=1, pages=1, entry=RAM, mode=0, caps=()):
    """An image file: sections as (address, bytes), capabilities as (place, base, length, permissions, flag)."""
    parts = [b"CHERIIMG", struct.pack("<IIQII", version, pages, entry, len(sections), mode)]
    for address, data in sections:
        parts += [struct.pack("<QQ", address, len(data)), data]
    if version == 2:
        parts += [struct.pack("<I", len(caps)), *(struct.pack("<QQQII", *cap) for cap in caps)]
    return b"".join(parts)


def encodings():
    """The rows of docs/PROGRAMMING.md: (mask, value, format, mnemonic)."""
    page = read("docs", "PROGRAMMING.md").decode()
    lines = re.findall(r"^\| `0x([0-9a-f]{8})` \| `0x([0-9a-f]{8})` \| (\w+) \| `([\w.]+)", page, re.MULTILINE)
    return [(int(mask, 16), int(value, 16), form, name) for mask, value, form, name in lines]
