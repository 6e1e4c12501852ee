#!/usr/bin/env python3
"""Refuses the growths of memory of the calls that take it one after the other, and says how many of each call were refused.

    python3 tools/refused_growths.py [PROGRAM]

PROGRAM is the proved program, as the gate leaves it: crates/conformance/out/conformance, which makes these calls where its word is
`growths`. A small library in front of the C library's allocator refuses the growth of a number, for numbers upwards until a run has fewer.
In each other run one call says that it was refused with its code; the program itself tries what the refusal left, and the call made again.
The first growths are those of the program's own words: it ends with status 1, and makes no call.
"""
import os
import shutil
import subprocess
import sys
import tempfile

ROOT = os.path.join(os.path.dirname(os.path.abspath(__file__)), "..")

# The calls, in the order in which the program makes them, and the codes that refuse them.
CALLS = ["build", "read", "assemble", "new", "new", "run", "run", "new", "new", "command", "new", "new", "talk"]
CODES = {"build": "L11", "read": "L11", "assemble": "A10", "new": "M2", "run": "M5", "command": "B4", "talk": "Memory"}

# Counts the growths, refuses the one of the number in REFUSED_GROWTH, and says at the end whether there was one.
SHIM = r"""
extern void *__libc_malloc(unsigned long);
extern void *__libc_calloc(unsigned long, unsigned long);
extern void *__libc_realloc(void *, unsigned long);
extern char *getenv(const char *);
extern unsigned long strtoul(const char *, char **, int);
extern long write(int, const void *, unsigned long);
static unsigned long met, wanted;
static int is_refused(void) { met += 1; return met == wanted; }
void *malloc(unsigned long size) { return is_refused() ? 0 : __libc_malloc(size); }
void *calloc(unsigned long count, unsigned long size) { return is_refused() ? 0 : __libc_calloc(count, size); }
void *realloc(void *old, unsigned long size) { return is_refused() ? 0 : __libc_realloc(old, size); }
__attribute__((constructor)) static void begin(void) {
    char *word = getenv("REFUSED_GROWTH");
    met = 0;
    wanted = word ? strtoul(word, 0, 10) : 0;
}
__attribute__((destructor)) static void end(void) { if (met < wanted) write(2, "fewer", 5); else write(2, "refused", 7); }
"""


def compilers():
    """The words that call a C compiler, for each that there is: one that CC names, the system's, the toolchain's."""
    for word in (os.environ.get("CC"), "cc", "clang", "gcc"):
        if word and shutil.which(word):
            yield [shutil.which(word)]
    if shutil.which("rt"):
        kept = os.path.join(os.path.dirname(os.path.realpath(shutil.which("rt"))), "..", "toolchain", "bin", "clang")
        if os.path.exists(kept):
            yield [kept, "-fuse-ld=lld"]


def library(folder):
    """The library that refuses a growth. It needs nothing of the system: what it calls is in the program's own C library."""
    source, made = os.path.join(folder, "shim.c"), os.path.join(folder, "shim.so")
    with open(source, "w") as file:
        file.write(SHIM)
    for words in compilers():
        ran = subprocess.run([*words, "-shared", "-fPIC", "-nostdlib", "-fno-builtin", "-O1", "-o", made, source], capture_output=True)
        if ran.returncode == 0:
            return made
    sys.exit("tools/refused_growths.py needs a C compiler: one that CC names, or cc, of Debian's package gcc")


def refusal(program, shim, number):
    """The call that was refused where the growth of this number is, `words` where the program's words were, or None where there are
    fewer."""
    asked = {"LD_PRELOAD": shim, "REFUSED_GROWTH": str(number)}
    ran = subprocess.run([program, "growths"], env=asked, capture_output=True, text=True, timeout=120)
    lines = [line.partition(": ") for line in ran.stdout.splitlines()]
    refused = [(name, said.partition(",")[0]) for name, _, said in lines if said != "no refusal, done"]
    is_whole = ran.returncode == 0 and [name for name, _, _ in lines] == CALLS
    if ran.stderr == "fewer" and is_whole and not refused:
        return None
    if ran.stderr.endswith("refused") and ran.returncode == 1 and not ran.stdout:
        return "words"
    if ran.stderr != "refused" or not is_whole or len(refused) != 1 or CODES[refused[0][0]] != refused[0][1]:
        sys.exit(f"growth {number} refused: status {ran.returncode}\n{ran.stdout}{ran.stderr}")
    return refused[0][0]


def main():
    program = sys.argv[1] if len(sys.argv) > 1 else os.path.join(ROOT, "crates", "conformance", "out", "conformance")
    counts = {"words": 0, **dict.fromkeys(CODES, 0)}
    with tempfile.TemporaryDirectory() as folder:
        shim = library(folder)
        number = 1
        while (name := refusal(program, shim, number)) is not None:
            counts[name] += 1
            number += 1
    print("refused growths: " + ", ".join(f"{name} {count}" for name, count in counts.items()))
    never = [name for name, count in counts.items() if count == 0 and name != "words"]
    if never:
        sys.exit(f"never refused: {', '.join(never)}")


if __name__ == "__main__":
    main()
