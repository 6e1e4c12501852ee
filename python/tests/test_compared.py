"""Other machines beside this one: QEMU where it is installed, and the signature of a test in the form of riscv-arch-test.

CHERISIM_QEMU_STEPS says how many steps are compared.
"""
import contextlib
import importlib.util
import io
import os
import random
import sys
import tempfile
import types
import unittest

import support
from support import GCC, RAM, said
import signature
from cherisim import Machine
from cherisim import compare_qemu
from cherisim._qemu import SYSTEM, USER
from cherisim._random_programs import (AT_TIME, CODE, DATA, DIRECT, HANDLER, START, TABLE, TIME, VECTORED, WORDS, handler,
                                       program)

STEPS = int(os.environ.get("CHERISIM_QEMU_STEPS", "10000"))
TESTS = os.path.dirname(os.path.abspath(__file__))


class RandomPrograms(unittest.TestCase):
    def test_handler(self):
        """By hand: what the handler does of an interrupt, of an exception, and where nothing could be fetched."""
        for cause, mepc, expected in ((1 << 63 | 7, CODE, CODE), (2, CODE, CODE + 4), (4, CODE + 8, CODE + 12), (1, 0, CODE),
                                      (0, CODE + 4, CODE)):
            it = program(random.Random(1))
            machine = Machine.flat(it.data, pages=3)
            for number, value in enumerate(it.registers):
                machine.regs[number] = value
            machine.csrs["mcause"], machine.csrs["mepc"], machine.pc = cause, mepc, HANDLER
            machine.run(20, until=expected)
            self.assertEqual((machine.pc, machine.time.mtimecmp == (1 << 64) - 1), (expected, True), cause)
        self.assertLess(HANDLER + 4 * len(handler()), VECTORED)

    def test_programs(self):
        """They get to their code, and traps, interrupts and loads all come; nothing but the data is written."""
        drawn, causes = random.Random(5), set()
        for _ in range(20):
            it = program(drawn)
            machine = Machine.flat(it.data, pages=256)
            machine.regs[AT_TIME] = TIME
            self.assertEqual((machine.run(10, until=CODE).steps, machine.time.mtimecmp), (START, (1 << 64) - 1))
            for name, value in it.csrs.items():
                machine.csrs[name] = value
            for number, value in enumerate(it.registers):
                machine.regs[number] = value
            for _ in range(300):
                machine.step()
                causes.add(machine.csrs["mcause"])
            self.assertEqual(machine.mem[CODE:CODE + 4 * WORDS], it.data[CODE - RAM:][:4 * WORDS])
            self.assertEqual((machine.regs[DIRECT].address, machine.regs[TABLE].address), (HANDLER, VECTORED | 1))
            self.assertNotEqual(machine.mem[DATA:], it.data[DATA - RAM:])
        self.assertTrue({0, 1, 2, 3, 4, 5, 6, 7, 11, 1 << 63 | 7} <= causes, causes)


class BesideQemu(unittest.TestCase):
    @support.needs(SYSTEM)
    def test_random_programs(self):
        status, out = said(compare_qemu.main, ["--steps", str(STEPS), "--seed", "86"])
        self.assertEqual(status, 0, out)
        self.assertRegex(out, rf"^steps {STEPS}, programs \d+")
        self.assertTrue(out.endswith("other differences: 0\n"), out)
        self.assertTrue(STEPS < 10000 or "interrupt 7" in out and "trap 11" in out, out)

    @support.needs(SYSTEM)
    def test_a_difference_is_found(self):
        """One bit of one register."""
        qemu = compare_qemu.System()
        try:
            both = compare_qemu.Compared(qemu)
            both.open(program(random.Random(2)))
            both.machine.regs[27] = both.machine.regs[27].address ^ 1 << 40
            both.run(50)
        finally:
            qemu.close()
        self.assertEqual(len(both.unknown), 1)
        self.assertRegex(str(both.unknown[0]), r"^step \d+, 0x80001\w+ .*: x\d+ is 0x\w+ here and 0x\w+ in QEMU$")

    @support.needs(USER, GCC)
    def test_compiled(self):
        """The program of docs/COMPILED.md: each step's registers, and what is sent."""
        folder = os.path.join(support.TOP, "examples", "c")
        with tempfile.TemporaryDirectory() as room:
            sources = [os.path.join(folder, "start.S"), os.path.join(folder, "primes.c")]
            _, flat, _ = support.compiled(room, sources, os.path.join(folder, "program.ld"), "-O2")
            status, out = said(compare_qemu.main, ["--program", flat])
        self.assertEqual(status, 0, out)
        self.assertRegex(out, r"^steps \d{3,}, sent b'2 3 5 .* 97\\n', differences: none\n$")


class Signatures(unittest.TestCase):
    """A test of our own in the suite's form, by the plugin's own commands."""

    def plugin(self, room):
        """The plugin, over a stand-in for riscof's base class, which is not installed everywhere."""
        base = types.ModuleType("riscof.pluginTemplate")
        base.pluginTemplate = type("pluginTemplate", (), {"__init__": lambda self, *_given, **named: setattr(self, "name", named["name"])})
        names = {"riscof": types.ModuleType("riscof"), "riscof.pluginTemplate": base}
        folder = os.path.join(support.TOP, "python", "riscof")
        spec = importlib.util.spec_from_file_location("riscof_cherisim", os.path.join(folder, "riscof_cherisim.py"))
        module, before = importlib.util.module_from_spec(spec), {name: sys.modules.get(name) for name in names}
        sys.modules.update(names)
        try:
            spec.loader.exec_module(module)
        finally:
            for name, was in before.items():
                sys.modules.pop(name) if was is None else sys.modules.__setitem__(name, was)
        config = {"pluginpath": folder, "ispec": os.path.join(folder, "cherisim_isa.yaml"), "jobs": "2",
                  "pspec": os.path.join(folder, "cherisim_platform.yaml")}
        made = module.cherisim(name="DUT-cherisim:", config=config)
        made.initialise("", room, TESTS)
        return made

    @support.needs(GCC)
    def test_plugin(self):
        expected = ["00000007", "00000000", "ffffffff", "ffffffff", "80000000", "ffffffff", "00000002", "00000000", "deadbeef", "deadbeef"]
        with tempfile.TemporaryDirectory() as room:
            made = self.plugin(room)
            made.build("", "")
            test = os.path.join(TESTS, "arch_add.S")
            made.runTests({"add": {"work_dir": room, "macros": ["XLEN=64"], "isa": "RV64IM", "test_path": test}})
            with open(os.path.join(room, "DUT-cherisim.signature"), encoding="ascii") as file:
                self.assertEqual(file.read().split(), expected + ["00000000", "00000000"])

    def test_not_halted(self):
        with tempfile.TemporaryDirectory() as room:
            flat, names = os.path.join(room, "x.bin"), os.path.join(room, "x.sym")
            with open(flat, "wb") as data, open(names, "w", encoding="ascii") as table:
                data.write((0x6F).to_bytes(4, "little"))
                table.write(f"{RAM:016x} T begin_signature\n{RAM + 4:016x} T end_signature\n")
            with contextlib.redirect_stderr(io.StringIO()) as told:
                self.assertEqual(signature.main([flat, names, "9"], io.StringIO()), 1)
            self.assertEqual(told.getvalue(), f"{flat}: not halted after 9 steps, pc 0000000080000000 <begin_signature>\n")
            self.assertEqual(signature.signature(Machine.flat(b"\x6f\0\0\0", symbols=f"{RAM:016x} T begin_signature\n"
                                                              f"{RAM + 4:016x} T end_signature\n")), ["0000006f"])


if __name__ == "__main__":
    unittest.main()
