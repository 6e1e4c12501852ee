"""The machine: worked rows, by docs/PROGRAMMING.md, docs/ASSEMBLY.md and docs/DEBUGGER.md."""
import copy
import doctest
import gc
import os
import random
import subprocess
import tempfile
import threading
import unittest
from unittest import mock

from support import FIRST, NO_PROGRAM, PAGE, PROGRAM, RAM, has_program, image, read
import cherisim
from cherisim import (CSRS, REGISTERS, SCRS, Cap, CherisimError, Closed, Console, ImageFault, Machine, OutOfRange, Perms, Stop, Symbols,
                      TextFault, Timer, WrongThread, decode)

HELLO = r"""
        lui a1, 0x10000
        la a2, text
        la a3, end
next:   lbu a0, 0(a2)
        sb a0, 0(a1)
        addi a2, a2, 1
        bne a2, a3, next
        lui a1, 0x100
        sd zero, 0(a1)
text:   .ascii "hello, world\n"
end:
"""
ECHO = "lui a1, 0x10000\nwait: ld a0, 16(a1)\nandi a0, a0, 1\nbeq a0, zero, wait\nld a0, 8(a1)\nsb a0, 0(a1)\nj wait\n"


def code_of(call, *given, **named):
    """The code of the fault that a call raises."""
    try:
        call(*given, **named)
    except (ImageFault, TextFault) as fault:
        return fault.code
    return ""


class Life(unittest.TestCase):
    def test_images(self):
        first = image([(RAM, FIRST)])
        self.assertEqual(len(first), 68)
        self.assertEqual([code_of(Machine, first[:n]) for n in range(70)], ["L1"] * 32 + ["L8"] * 36 + ["", ""])
        self.assertEqual(code_of(Machine, first + b"x"), "L9")
        caps = [(0x80000100, 0x80001000, 4095, 0xFFFF, 0)]
        self.assertEqual(Machine(image([], version=2, caps=caps)).cap_at(0x80000100), Cap.make(0x80001000, 0x80001FFF))
        faults = {"L2": b"CHERIIMH" + first[8:], "L3": image([], version=3), "L4": image([], pages=4097), "L5": image([(RAM, b"")] * 65),
                  "L6": image([(RAM - 1, b"a")]), "L7": image([(RAM + 1, b"a"), (RAM, b"b")]),
                  "L12": image([], version=2, caps=[(RAM + 8, 0, 16, 0, 0)]), "L13": image([], version=2, caps=[(RAM, 1, 4096, 0, 0)]),
                  "L14": image([], version=2, caps=[(RAM, 0, 16, 0, 2)]), "L15": image([], version=2, caps=[(RAM, 0, 0, 0, 0)] * 1025)}
        self.assertEqual({code: code_of(Machine, data) for code, data in faults.items()}, {code: code for code in faults})

    def test_texts(self):
        with self.assertRaises(TextFault) as caught:
            Machine(text="nop\nnop\naddi a0, a0, 4096\n")
        self.assertEqual((caught.exception.code, caught.exception.line, caught.exception.status), ("A3", 3, 35))
        self.assertEqual(str(caught.exception), "line 3: A3 immediate out of range")
        faults = {"A1": "foo", "A2": "ld a0", "A4": "x:\nx:", "A5": "j x", "A6": "beq a0, a0, 0", "A7": ".zero 5000", "A8": b"\x80",
                  "A9": " " * 256, "A11": ".cap 1, 4096, 0, 0"}
        self.assertEqual({code: code_of(Machine, text=text) for code, text in faults.items()}, {code: code for code in faults})
        self.assertEqual(Machine(text=b"nop").mem[RAM:RAM + 4], b"\x13\0\0\0")

    def test_flat(self):
        machine = Machine.flat(FIRST, RAM + 16, pages=3, capability_mode=True)
        self.assertEqual((machine.pc, machine.pages, machine.scrs["pcc"].flag, machine.mem[RAM + 16:RAM + 36]), (RAM + 16, 3, True, FIRST))
        self.assertEqual(Machine.flat(FIRST, entry=RAM + 8).pc, RAM + 8)
        self.assertEqual([code_of(Machine.flat, FIRST, **it) for it in ({"pages": 0}, {"entry": RAM + 2}, {"address": RAM + PAGE - 4})],
                         ["L4", "L4", "L6"])
        for named in ({"address": -1}, {"entry": 1 << 64}, {"pages": 1 << 32}):
            self.assertRaises(OutOfRange, Machine.flat, FIRST, **named)

    def test_given(self):
        self.assertRaises(TypeError, Machine)
        self.assertRaises(TypeError, Machine, b"", text="")
        self.assertEqual(Machine(bytearray(image([]))).pc, RAM)
        self.assertTrue(issubclass(ImageFault, CherisimError) and issubclass(OutOfRange, LookupError))

    def test_copies(self):
        machine = Machine(text=HELLO)
        machine.run(20)
        for other in (machine.copy(), copy.copy(machine), copy.deepcopy(machine)):
            self.assertEqual((other.pc, bytes(other.sent), other.mem[:]), (machine.pc, b"hell", machine.mem[:]))
            other.run(1000)
            other.mem[RAM] = 0xEE
            self.assertEqual((other.halted, bytes(other.sent), machine.halted, bytes(machine.sent)), (0, b"hello, world\n", None, b"hell"))
            self.assertNotEqual(machine.mem[RAM], 0xEE)

    def test_closed(self):
        with Machine(text="nop") as machine:
            machine.step()
        for call in (machine.step, machine.tick, machine.why, machine.copy, lambda: machine.pc, lambda: machine.regs["a0"]):
            self.assertRaises(Closed, call)
        machine.close()
        self.assertEqual(repr(machine), "<Machine closed>")
        self.assertIn("pc 0x80000000 running", repr(Machine(text="nop")))

    def test_threads(self):
        machine, caught = Machine(text="nop"), []

        def other():
            for call in (machine.step, machine.close, lambda: machine.regs["a0"], machine.copy, machine.why):
                try:
                    call()
                except WrongThread:
                    caught.append(call)
            caught.append(Machine(text=HELLO).run(1000).sent)
        thread = threading.Thread(target=other)
        thread.start()
        thread.join()
        self.assertEqual((len(caught), caught[-1], machine.pc), (6, b"hello, world\n", RAM))
        gc.collect()


class Runs(unittest.TestCase):
    def test_first_image(self):
        machine = Machine(image([(RAM, FIRST)]))
        self.assertEqual([machine.step() for _ in range(6)], [b"", b"", b"A", b"", b"", b""])
        self.assertEqual((bytes(machine.sent), machine.halted, machine.csrs["minstret"], machine.pc), (b"A", 0, 5, RAM + 20))

    def test_stops(self):
        machine = Machine(text=HELLO)
        self.assertEqual(machine.run(5), (5, b"", Stop.STEPS, None))
        self.assertEqual(machine.run(1000, until=RAM + 36), (52, b"hello, world\n", Stop.ADDRESS, None))
        self.assertEqual(machine.run(1000, until=RAM + 36), (0, b"", Stop.ADDRESS, None))
        self.assertEqual(machine.run(1000), (2, b"", Stop.HALTED, 0))
        self.assertEqual(machine.run(1000, input=b"abc"), (0, b"", Stop.HALTED, 0))
        self.assertEqual(machine.console.waiting, b"")
        self.assertEqual(Machine(text=HELLO).run(59), (59, b"hello, world\n", Stop.STEPS, 0))
        machine = Machine(text="nop\nebreak\n")
        self.assertEqual((machine.run(9, until="trap"), machine.next_ends), ((1, b"", Stop.TRAP, None), Stop.TRAP))
        self.assertEqual(machine.run(0, until="trap").stop, Stop.STEPS)
        for wrong in ({"gap": 0}, {"tick": -1}, {"until": -1}, {"until": 1 << 64}):
            self.assertRaises(OutOfRange, machine.run, 5, **wrong)
        self.assertRaises(OutOfRange, machine.run, 1 << 64)
        self.assertRaises(OutOfRange, machine.run, 5, until="end")

    def test_stops_of_a_kind(self):
        """Up to a step of one kind, by a search over single steps."""
        text = read("examples", "compartments.s")
        plain, ends = Machine(text=text), []
        while plain.halted is None:
            ends.append(plain.next_ends)
            plain.step()
        for kind in (Stop.TRAP, Stop.SEALED_JUMP, Stop.UNSEAL):
            machine, at = Machine(text=text), 0
            while machine.halted is None:
                ran = machine.run(100000, until=kind)
                at += ran.steps
                self.assertEqual(ran.stop, kind if machine.halted is None else Stop.HALTED)
                self.assertEqual(at, ends.index(kind, at) if kind in ends[at:] else len(ends))
                at += machine.run(1).steps
            self.assertEqual(at, len(ends))
        self.assertRaises(ValueError, plain.run, 1, until=Stop.HALTED)
        self.assertRaises(ValueError, plain.run, 1, until=(Stop.TRAP, Stop.STEPS))

    def test_turns(self):
        """Through sealed jumps, up to the first step that traps or unseals."""
        machine, single = (Machine(text=read("examples", "compartments.s")) for _ in "ab")
        while machine.halted is None:
            ran, done, ends = machine.run_turn(100000, tick=7), 0, []
            while single.halted is None and single.next_ends not in (Stop.TRAP, Stop.UNSEAL):
                ends.append(single.next_ends)
                single.step()
                done += 1
                if done % 7 == 0 and single.halted is None:
                    single.tick()
            self.assertEqual((ran.steps, ran.stop), (done, Stop.HALTED if machine.halted is not None else single.next_ends))
            machine.step()
            single.step()
        self.assertEqual((machine.sent, everything(machine)), (single.sent, everything(single)))
        machine = Machine(text=".mode 1\ncjalr cnull, 0(ca0)\nnop\nebreak\n")
        machine.regs["ca0"] = machine.scrs["pcc"].set_address(RAM + 4).seal_entry()
        self.assertEqual((machine.copy().run(9, "trap")[::2], machine.run_turn(9)[::2]), ((0, Stop.SEALED_JUMP), (2, Stop.TRAP)))

    def test_many_bytes(self):
        machine = Machine(text="lui a1, 0x10000\nlui a0, 64\nloop: sb a0, 0(a1)\naddi a0, a0, -1\nbne a0, zero, loop\n"
                               "lui a1, 0x100\nsd a0, 0(a1)\n")
        ran = machine.run(1 << 40)
        self.assertEqual((ran.steps, len(ran.sent), ran.stop, ran.halted), (3 * (64 << 12) + 4, 64 << 12, Stop.HALTED, 0))
        self.assertEqual(ran.sent[:3], b"\0\xff\xfe")

    def test_input_ends_with_the_run(self):
        machine = Machine(text=ECHO)
        self.assertEqual(machine.run(500, until=RAM + 20, input=b"abc", gap=50), (5, b"", Stop.ADDRESS, None))
        self.assertEqual(machine.console.waiting, b"")
        machine = Machine(text="nop\nnop\nebreak\n")
        self.assertEqual(machine.run(500, until="trap", input=b"abc", gap=2), (2, b"", Stop.TRAP, None))
        self.assertEqual(machine.console.waiting, b"ab")
        with mock.patch.dict(cherisim._ROOM, sent=2):
            self.assertEqual(Machine(text=HELLO).run(1000).sent, b"hello, world\n")

    def test_next_ends(self):
        machine = Machine(text=".mode 1\ncunseal ca2, ca0, ca1\ncjalr cnull, 0(ca3)\n")
        machine.regs["ca0"], machine.regs["ca1"] = Cap.make(0, 16, otype=5), Cap.root(5)
        self.assertEqual((machine.run(9, until="trap").stop, machine.next_ends), (Stop.UNSEAL, Stop.UNSEAL))
        machine.step()
        machine.regs["ca3"] = machine.scrs["pcc"].seal_entry()
        self.assertEqual((machine.run(9, until="trap").stop, machine.next_ends), (Stop.SEALED_JUMP, Stop.SEALED_JUMP))
        machine.regs["ca3"] = machine.scrs["pcc"]
        self.assertIsNone(machine.next_ends)

    def test_schedule(self):
        """A run by a schedule is the single events of the schedule."""
        drawn = random.Random(5)
        for _ in range(60):
            steps, gap, tick = drawn.randrange(400), drawn.randrange(1, 60), drawn.choice((0, 1, 7, 50))
            data, text = drawn.randbytes(drawn.randrange(12)), drawn.choice((ECHO, HELLO))
            run, single = Machine(text=text), Machine(text=text)
            ran = run.run(steps, tick=tick, input=data, gap=gap)
            done = 0
            while done < steps and single.halted is None:
                if done % gap == 0 and done // gap < len(data):
                    single.receive(data[done // gap:done // gap + 1])
                single.step()
                done += 1
                if tick and done % tick == 0 and single.halted is None:
                    single.tick()
            self.assertEqual((ran.steps, ran.sent), (done, bytes(single.sent)))
            self.assertEqual(everything(run), everything(single))

    def test_ticks_and_bytes(self):
        machine = Machine(text="loop: j loop")
        machine.tick(3)
        machine.receive(bytes(range(70)))
        self.assertEqual(machine.time, Timer(3, (1 << 64) - 1))
        self.assertEqual(machine.console, Console(bytes(range(64)), True, False))
        self.assertEqual(machine.run(25, tick=10).steps, 25)
        self.assertEqual(machine.time.mtime, 5)


def everything(machine):
    return (machine.regs.values(), machine.scrs.values(), machine.csrs.values(), machine.mem[:], list(machine.tags()), machine.time,
            machine.console, machine.halted)


class Held(unittest.TestCase):
    def test_opening(self):
        machine = Machine(text=".mode 1\n.pages 2\nnop")
        self.assertEqual(machine.regs.values(), [Cap()] * 32)
        self.assertEqual(dict(machine.scrs.items()), {
            "pcc": Cap.root(RAM).set_flag(True), "ddc": Cap.root(), "mtcc": Cap.root(), "mtdc": Cap(), "mscratchc": Cap(),
            "mepcc": Cap.root()})
        self.assertEqual({name: value for name, value in machine.csrs.items() if value}, {"mstatus": 0x1800, "misa": 0x8000000000001100})
        self.assertEqual((list(machine.csrs), list(machine.scrs), len(machine.regs)), (list(CSRS), list(SCRS), 32))
        self.assertEqual((machine.pages, len(machine.mem), machine.halted, machine.time.mtime), (2, 8192, None, 0))
        self.assertEqual([machine.regs.items()[n][0] for n in (0, 1, 10, 31)], ["cnull", "cra", "ca0", "ct6"])

    def test_registers(self):
        machine = Machine(text=".mode 1\naddi a0, a0, 1\ncsb a0, 15(ca1)\n")
        machine.regs["a0"], machine.regs[11], machine.regs["zero"] = -2, Cap.make(RAM + 64, RAM + 80), 5
        machine.step(2)
        self.assertEqual((machine.regs["ca0"], machine.regs["cnull"], machine.mem[RAM + 79]), (Cap(-1), Cap(), 0xFF))
        for name in ("a8", "czero", 32, -1, 256):
            with self.assertRaises(OutOfRange):
                machine.regs[name]
            with self.assertRaises(OutOfRange):
                machine.regs[name] = 0
        with self.assertRaises(TypeError):
            machine.regs["a0"] = "5"

    def test_special_registers(self):
        machine = Machine(text="lw a0, 0(a1)\n.org 0x80000100\nnop\n")
        machine.scrs["ddc"], machine.scrs["mtcc"], machine.regs["a1"] = Cap.make(RAM, RAM), Cap.root(RAM + 0x100), RAM
        machine.step()
        self.assertEqual((machine.csrs["mcause"], machine.csrs["mtval"], machine.pc), (28, 0x421, RAM + 0x100))
        machine.pc = RAM
        self.assertEqual(machine.scrs["pcc"], Cap.root(RAM))
        with self.assertRaises(OutOfRange):
            machine.pc = RAM + 2
        machine.scrs["pcc"] = Cap.make(RAM, RAM + 16)
        machine.pc = 0
        self.assertFalse(machine.scrs["pcc"].tag)
        for name in ("pc", 2, 27, 32, 256):
            with self.assertRaises(OutOfRange):
                machine.scrs[name]

    def test_status_registers(self):
        machine = Machine(text="csrrs a0, mscratch, zero")
        machine.csrs["mscratch"], machine.csrs["mstatus"], machine.csrs["mie"], machine.csrs["misa"] = 0x1234, -1, -1, 0
        machine.step()
        self.assertEqual([machine.csrs[name] for name in ("mstatus", "mie", "misa", 0x340)], [0x1888, 0x880, 0x8000000000001100, 0x1234])
        self.assertEqual(machine.regs["a0"].address, 0x1234)
        for name in ("pcc", 0x7C0, 0x1340, 0x10340, -1):
            with self.assertRaises(OutOfRange):
                machine.csrs[name]

    def test_memory(self):
        machine = Machine(text="nop")
        end = RAM + PAGE
        machine.mem[RAM + 100:RAM + 103] = b"abc"
        machine.mem[end - 1] = 7
        self.assertEqual((machine.mem[RAM + 99:RAM + 104], machine.mem[end - 2:], machine.mem[RAM + 101]), (b"\0abc\0", b"\0\7", ord("b")))
        self.assertEqual((machine.mem[RAM + 5:RAM + 5], len(machine.mem[:])), (b"", PAGE))
        for where in (RAM - 1, end, 0, -1, 1 << 64, slice(RAM, end + 1), slice(0, 1 << 64), slice(RAM + 2, RAM), slice(-2, RAM)):
            with self.assertRaises(OutOfRange):
                machine.mem[where]
        with self.assertRaises(OutOfRange):
            machine.mem[end - 1:end + 1] = b"ab"
        for value in (b"abc", b"a", b""):
            with self.assertRaises(ValueError):
                machine.mem[RAM:RAM + 2] = value
        with self.assertRaises(ValueError):
            machine.mem[RAM:RAM + 4:2]
        with self.assertRaises(TypeError):
            machine.mem[RAM:RAM + 2] = 2

    def test_capabilities_in_memory(self):
        machine = Machine(text=".mode 1\nclc ca0, 0(ca1)\ncsb a2, 3(ca1)\n")
        third = Cap.make(0x80001000, 0x80001FFF)
        machine.regs["ca1"], machine.regs["a2"] = Cap.make(RAM + 256, RAM + 288), 0x41
        for at in (RAM + 256, RAM + 4080, RAM):
            machine.set_cap(at, third)
        self.assertEqual(list(machine.tags()), [RAM, RAM + 256, RAM + 4080])
        machine.mem[RAM:RAM + 8] = Machine(text="clc ca0, 0(ca1)\ncsb a2, 3(ca1)").mem[RAM:RAM + 8]
        self.assertEqual(machine.mem[RAM + 256:RAM + 272], bytes.fromhex("00100080000000000450fe070000ffff"))
        machine.step(2)
        self.assertEqual((machine.regs["ca0"], list(machine.tags())), (third, [RAM + 4080]))
        self.assertEqual(machine.mem[RAM + 256:RAM + 272], bytes.fromhex("00100041000000000450fe070000ffff"))
        machine.set_cap(RAM + 4080, 5)
        self.assertEqual((machine.cap_at(RAM + 4080), list(machine.tags())), (Cap(5), []))
        for at in (RAM + 8, RAM - 16, RAM + PAGE, -16, 1 << 64):
            self.assertRaises(OutOfRange, machine.cap_at, at)
            self.assertRaises(OutOfRange, machine.set_cap, at, third)

    def test_names(self):
        """A register has the name here that it has in the assembly language."""
        for name, number in REGISTERS.items():
            self.assertEqual(decode(int.from_bytes(Machine(text=f"sd {name}, 0(a0)").mem[RAM:RAM + 4], "little")).rs2, number)
        for name in SCRS:
            machine = Machine(text=f"cspecialrw ca0, {name}, cnull")
            machine.scrs[name] = expected = Cap.root(RAM) if name == "pcc" else Cap.root(5).and_perms(Perms.Load)
            machine.step()
            self.assertEqual((name, machine.regs["ca0"]), (name, expected))
        for name in CSRS:
            machine = Machine(text=f"csrrs a0, {name}, zero")
            machine.csrs[name] = 0x880
            before = machine.csrs[name]
            machine.step()
            self.assertEqual((name, machine.regs["a0"].address), (name, before))

    def test_halted(self):
        machine = Machine(text="lui a1, 0x100\nli a0, -2\nsd a0, 0(a1)\n")
        machine.step(2)
        self.assertIsNone(machine.halted)
        machine.step()
        self.assertEqual((machine.halted, machine.why()), ((1 << 64) - 2, f"halted {(1 << 64) - 2}\n"))


class Texts(unittest.TestCase):
    def test_why(self):
        """docs/DEBUGGER.md: the store past the bounds."""
        machine = Machine.flat((0xF8C5045B).to_bytes(4, "little"), RAM + 0x30)
        machine.regs["ca0"] = Cap.make(0x80000120, 0x80000130, address=0x80000130)
        lines = machine.why().splitlines()
        self.assertEqual(lines[0], "0000000080000030 f8c5045b sb.cap a2, (ca0)")
        self.assertEqual(lines[-2], "  no length of ca0: 0000000080000130 + 1 in 0000000080000120 to 00000000080000130")
        self.assertEqual(lines[-1], "effect: trap CHERI exception, length violation at ca0, mcause 000000000000001c, "
                                    "mtval 0000000000000141")
        self.assertEqual((len(lines), lines[2]), (17, "  pcc " + str(Cap.root(RAM + 0x30)) + " GXRWcCLsiuSd"))
        with mock.patch.dict(cherisim._ROOM, text=8):
            self.assertEqual(machine.why().splitlines(), lines)

    def test_trace(self):
        """Lines of docs/TRACE.md, and all of a run against the program's."""
        lines = Machine(text=read("examples", "hello.s"), symbols=Symbols()).trace(1000).splitlines()
        page = read("docs", "TRACE.md").decode().split("```console\n")[1].split("```")[0].splitlines()
        self.assertEqual((lines[13:17], len(lines)), (page[-4:], 67))
        self.assertEqual(Machine(text="j next\nnext: nop\n").trace(1),
                         "1 0000000080000000 0040006f jal zero, .+4: jump to 0000000080000004 <next>\n")
        machine = Machine(text="nop\nebreak\n")
        self.assertEqual(machine.trace(0), "")
        self.assertEqual(machine.trace(2).count("\n"), 2)
        machine = Machine(text=ECHO)
        self.assertEqual(machine.trace(40, input=b"ab", gap=20, tick=3).count("\n"), 40)
        self.assertEqual(machine.time.mtime, 13)
        self.assertRaises(OutOfRange, machine.trace, 1, gap=0)

    @unittest.skipUnless(has_program(), NO_PROGRAM)
    def test_trace_of_the_program(self):
        """With the labels of the text."""
        with tempfile.TemporaryDirectory() as folder:
            for name, given in (("hello", {}), ("timer", {"tick": 9}), ("echo", {"input": b"ab\n", "gap": 50}), ("sealed", {})):
                text, paths = read("examples", f"{name}.s"), [os.path.join(folder, it) for it in ("s", "img", "trace", "in", "sym")]
                for path, data in ((paths[0], text), (paths[3], given.get("input", b""))):
                    with open(path, "wb") as file:
                        file.write(data)
                numbers = [str(given.get(name, other)) for name, other in (("tick", 0), ("gap", 1000))]
                options = ["--trace", paths[2], "--tick", numbers[0], "--gap", numbers[1], "--input", paths[3], "--symbols", paths[4]]
                subprocess.run([PROGRAM, "asm", *paths[:2], "--symbols", paths[4]], check=True, stdout=subprocess.DEVNULL)
                subprocess.run([PROGRAM, "run", paths[1], "500", *options], check=False, capture_output=True)
                with open(paths[2], encoding="ascii") as file:
                    self.assertEqual(Machine(text=text).trace(500, **given), file.read(), name)

    def test_the_modules_own_example(self):
        self.assertEqual(doctest.testmod(cherisim).failed, 0)
        self.assertGreater(doctest.testmod(cherisim).attempted, 3)

    def test_permissions_of_a_program(self):
        machine = Machine(text=".mode 1\ncld a0, 0(ca1)\n")
        machine.regs["ca1"] = Cap.make(RAM, RAM + 8).and_perms(0xFFFF & ~Perms.Load)
        machine.step()
        self.assertEqual((machine.csrs["mcause"], machine.csrs["mtval"]), (28, 11 * 32 + 0x12))


if __name__ == "__main__":
    unittest.main()
