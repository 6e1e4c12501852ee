"""Sessions of a real GDB, where gdb-multiarch is installed: of C, of assembly, and what they have to show line by line."""
import os
import re
import signal
import subprocess
import sys
import tempfile
import time
import unittest

import support
from support import GCC, RAM, image
from cherisim import Machine, elf

GDB = "gdb-multiarch"
ENVIRONMENT = {**os.environ, "PYTHONPATH": os.path.join(support.TOP, "python"), "LANG": "C.UTF-8"}
TESTS = os.path.dirname(os.path.abspath(__file__))
WAIT = 60  # seconds that a session may take

# What is typed, and what GDB has to show after it, in order; an address as ADDRESS.
OF_C = [
    ("", "_start \\(\\) at .*start.S:7"), ("tbreak weigh", "Temporary breakpoint 1 at ADDRESS: file .*sum.c, line 9."),
    ("continue", "Temporary breakpoint 1, weigh \\(from=0, to=8\\) at .*sum.c:9"), ("watch sum", "Hardware watchpoint 2: sum"),
    ("continue", "Old value = 0\nNew value = 1\n.*weigh \\(from=0, to=8\\) at .*sum.c:10"), ("delete", ""),
    ("finish", "Value returned is \\$1 = 140"),
    ("continue", "Program received signal SIGSEGV, Segmentation fault.\n.*main \\(\\) at .*sum.c:24"),
    ("monitor why", "  no RAM or a device at 0000000040000000\neffect: trap store access fault, mcause 0000000000000007, "
                    "mtval 0000000040000000"),
    ("break weigh", "Breakpoint 3 at ADDRESS"), ("reverse-continue", "Breakpoint 3, weigh \\(from=0, to=8\\) at .*sum.c:9"), ("delete", ""),
    ("reverse-continue", "No more reverse-execution history."),
    ("compare-sections", "Section .text, range .*: matched."), ("tbreak main", ""), ("continue", "Temporary breakpoint 4, main \\(\\)"),
    ("p weigh(2, 4)", "\\$2 = 0"), ("detach", "\\[Inferior 1 \\(Remote target\\) detached\\]")]
OF_ASSEMBLY = [
    ("", "start \\(\\) at .*bounds.s:92"), ("break fill", "Breakpoint 1 at ADDRESS: file .*bounds.s, line 28."),
    ("continue", "Breakpoint 1, fill \\(\\) at .*bounds.s:28\n28\\s+fill:   sb.cap  a2, \\(ca0\\)"), ("p/x $ca0.base", "\\$1 = 0x80000120"),
    ("p $ca0.perms", "\\$2 = \\[ Global Execute Load Store Access_System_Registers \\]"),
    ("watch -l *(char*)($ca0.base + 3)", "Hardware watchpoint 2: -location \\*\\(char\\*\\)"), ("delete 1", ""),
    ("continue", "Hardware watchpoint 2.*\n\nOld value = 0 .*\nNew value = 42 '\\*'"), ("delete", ""),
    ("continue", "trap: mcause 28, register 10, cause 1\n\n?No more reverse-execution history."),
    ("tbreak trap", "Temporary breakpoint 3 at ADDRESS"), ("reverse-continue", "Temporary breakpoint 3, trap \\(\\) at .*bounds.s:37"),
    ("reverse-stepi", "fill \\(\\) at .*bounds.s:28|28\\s+fill"),
    ("p/x $ca0", "address = 0x80000130, base = 0x80000120, top = 0x0*80000130, otype = 0x3ffff"),
    ("monitor origin ca0", "ca0 from ca0: 83 0000000080000034 <fill\\+4> .* bounds.s:29: "),
    ("monitor lost ca0", "no tag was lost at ca0"),
    ("kill", "\\[Inferior 1 \\(Remote target\\) killed\\]")]


def gdb_on(table, target, typed, words=()):
    """What GDB prints of commands over a table and a target."""
    given = [word for line in typed for word in ("-ex", line)]
    remote = f"target remote | {sys.executable} -m cherisim.gdb {target}"
    ran = subprocess.run([GDB, "-nx", "-q", "-batch", *words, table, "-ex", "set confirm off", "-ex", remote, *given], env=ENVIRONMENT,
                         stdin=subprocess.DEVNULL, stdout=subprocess.PIPE, stderr=subprocess.STDOUT, timeout=WAIT, check=False)
    return ran.stdout.decode(errors="replace")


@support.needs(GDB)
class Sessions(unittest.TestCase):
    def setUp(self):
        room = tempfile.TemporaryDirectory()
        self.addCleanup(room.cleanup)
        self.room = room.name

    def at(self, name):
        return os.path.join(self.room, name)

    def shows(self, came, session):
        """What a session has to show stands in what came, in order."""
        at = 0
        for typed, expected in session:
            found = re.compile(expected.replace("ADDRESS", "0x[0-9a-f]+")).search(came, at)
            self.assertTrue(found, f"after {typed!r}: {expected}\n{came[at:]}")
            at = found.end()

    def compiled(self):
        """The table and the image of sum.c."""
        source = os.path.join(support.TOP, "examples", "c")
        sources = [os.path.join(source, "start.S"), os.path.join(TESTS, "sum.c")]
        table, flat, _ = support.compiled(self.room, sources, os.path.join(source, "program.ld"), "-O0", "-g")
        with open(flat, "rb") as data, open(self.at("sum.img"), "wb") as made:
            made.write(image([(RAM, data.read())], pages=256))
        return table, self.at("sum.img")

    def assembled(self):
        """The table and the text of bounds.s, and the file of its lines."""
        path, table = os.path.join(support.TOP, "examples", "bounds.s"), self.at("bounds.elf")
        lines = support.assembled(self.room, "bounds")[2]
        self.assertEqual(elf.main([path, table, "--lines", lines]), 0)
        return table, path, lines

    @support.needs(GCC)
    def test_c(self):
        table, made = self.compiled()
        self.shows(gdb_on(table, made, [typed for typed, _ in OF_C if typed]), OF_C)

    @unittest.skipUnless(support.has_program(), support.NO_PROGRAM)
    def test_assembly(self):
        table, path, lines = self.assembled()
        self.shows(gdb_on(table, f"{path} --halt stay --lines {lines}", [typed for typed, _ in OF_ASSEMBLY if typed]), OF_ASSEMBLY)

    @support.needs(GCC)
    def test_load(self):
        """A program is loaded into an empty machine, and run."""
        table, _ = self.compiled()
        with open(self.at("empty.img"), "wb") as made:
            made.write(image([], pages=256))
        came = gdb_on(table, self.at("empty.img"), ["load", "compare-sections .text", "tbreak main", "continue", "kill"])
        self.shows(came, [("load", "Loading section .text"), ("", "Transfer rate"), ("", "Section .text, range .*: matched."),
                          ("", "Temporary breakpoint 1, main")])

    def test_steps(self):
        """stepi goes over a jump to a capability, CInvoke, MRET and traps: each pc is that of as many steps of the machine."""
        path = os.path.join(support.TOP, "examples", "compartments.s")
        count = 300
        came = gdb_on("/dev/null", f"{path} --stop never", [
            f"python [(gdb.execute('stepi', to_string=True), print('pc', int(gdb.parse_and_eval('(long)$pc')))) for n in range({count})]"])
        machine, expected = Machine(text=support.read("examples", "compartments.s")), []
        for _ in range(count):
            machine.step()
            expected.append(machine.pc)
        self.assertEqual([int(it) for it in re.findall(r"^pc (\d+)", came, re.MULTILINE)], expected, came[-500:])

    def test_interrupted(self):
        """Ctrl-C stops a loop that has no end."""
        with open(self.at("loop.s"), "w", encoding="ascii") as text:
            text.write("loop: j loop\n")
        remote = f"target remote | {sys.executable} -m cherisim.gdb {self.at('loop.s')}"
        words = [GDB, "-nx", "-q", "-i=mi", "-ex", "set confirm off", "-ex", remote]
        with subprocess.Popen(words, env=ENVIRONMENT, stdin=subprocess.PIPE, stdout=subprocess.PIPE, stderr=subprocess.STDOUT) as gdb:
            gdb.stdin.write(b"-exec-continue\n")
            gdb.stdin.flush()
            for line in gdb.stdout:
                if line.startswith(b"*running"):
                    break
            time.sleep(0.3)
            gdb.send_signal(signal.SIGINT)
            came = next(line for line in gdb.stdout if line.startswith(b"*stopped"))
            gdb.stdin.write(b"-gdb-exit\n")
            gdb.stdin.flush()
            gdb.stdout.read()
        self.assertIn(b'signal-name="SIGINT"', came)

    @unittest.skipUnless(support.has_program(), support.NO_PROGRAM)
    def test_letters(self):
        """With cherisim-gdb.py a capability is shown in letters, and rows of CHERI in x/i."""
        table, path, _ = self.assembled()
        beside = os.path.join(support.TOP, "python", "cherisim-gdb.py")
        came = gdb_on(table, path, [f"source {beside}", "break fill", "continue", "p $ca0", "x/i $pc"])
        self.assertRegex(came, r"tagged 0x80000120 in \[0x80000120, 0x80000130\) GXRW------S-")
        self.assertRegex(came, r"<fill>:\s+sb.cap a2, \(ca0\)")


if __name__ == "__main__":
    unittest.main()
