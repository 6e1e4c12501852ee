"""GDB's remote protocol: packets one by one against a written table, runs and their reversal against plain steps, and where
gdb-multiarch is installed the sessions of docs/GDB.md."""
import contextlib
import io
import os
import random
import re
import subprocess
import sys
import tempfile
import unittest

import support
from support import PAGE, RAM, read
from cases import why_objects
from cases.program_lines import image
from cherisim import CSRS, SCRS, Machine, Stop, Symbols, SymbolsFault, TextFault
from cherisim import elf, gdb
from cherisim._described import INTEGERS, registers
from cherisim._replay import Replay, Schedule
from cherisim._symbols import labels_of
from cherisim._wire import BOUND, Wire

# Three numbers are stored, the greatest first, and the machine halts with 5: 13 steps.
COUNT = """start:  auipc a2, 0
        li a0, 3
loop:   sd a0, 0x100(a2)
        addi a0, a0, -1
        bne a0, zero, loop
        lui a1, 0x100
        sd t0, 0(a1)
"""
# A byte is sent, the handler is set up and takes an ECALL, and what traps at last has no handler: MTCC is null.
TRAPS = """        lui a1, 0x10000
        li a0, 65
        sb a0, 0(a1)
        auipc a2, 0
        addi a2, a2, 28
        csrrw zero, mtvec, a2
        ecall
        cspecialrw cnull, mtcc, ca1
        lw a3, 3(zero)
        nop
handler: csrrs t0, mepc, zero
        addi t0, t0, 4
        csrrw zero, mepc, t0
        mret
"""


def frame(data):
    data = data if isinstance(data, bytes) else data.encode("latin-1")
    return b"$" + data + b"#%02x" % (sum(data) % 256)


class Line:
    """A line that has bytes from the start, all of which come at the first look."""

    def __init__(self, data):
        self.data, self.written = data, bytearray()

    def read(self, wait):
        came, self.data = self.data, b""
        return came or (None if wait else b"")


def talk(machine, *packets, schedule=Schedule(), raw=None, **asked):
    """All bytes that come back of packets, the first of which asks for no acknowledgement."""
    line = Line(frame("QStartNoAckMode") + b"".join(map(frame, packets)) if raw is None else raw)
    bridge = gdb.Bridge(Replay(machine, schedule), Wire(line.read, line.written.extend), gdb.Asked(**asked))
    bridge.talk()
    return bytes(line.written), bridge


def replies(machine, *packets, **how):
    """The data of the replies to packets."""
    came = talk(machine, *packets, **how)[0]
    found = re.findall(rb"\$((?:[^#])*)#(..)", came)
    for data, digits in found:
        assert int(digits, 16) == sum(data) % 256
    return [data.decode("latin-1") for data, _ in found][1:]


def pc(address):
    return f"20:{address.to_bytes(8, 'little').hex()};"


def number(value, size=8):
    return value.to_bytes(size, "little").hex()


class Frames(unittest.TestCase):
    """What stands around data."""

    def came(self, raw):
        return talk(Machine(text=COUNT), raw=raw)[0]

    def test_table(self):
        long = frame(b"m" * (BOUND + 1))
        for raw, expected in (
                (b"$qC#b4", b"+" + frame("QC1")), (b"$qC#B4", b"+" + frame("QC1")), (b"+junk$qC#b4", b"+" + frame("QC1")),
                (b"$qC#b5", b"-"), (b"$qC#xx", b"-"), (b"$qC#b5$qC#b4", b"-+" + frame("QC1")), (b"$qC#b4-", b"+" + 2 * frame("QC1")),
                (b"$qC#b", b""), (b"$q", b""), (b"", b""), (b"\x03$qC#b4", b"+" + frame("QC1")), (b"$#00", b"+$#00"),
                (frame("vMustReplyEmpty"), b"+$#00"), (frame("m80000000,4}"), b"+" + frame("E01")), (long, b"+" + frame("E05")),
                (long[:-2] + b"00", b"-"), (frame("QStartNoAckMode") + frame("qC"), b"+" + frame("OK") + frame("QC1")),
                (frame("QStartNoAckMode") + b"$qC#00" + frame("qC"), b"+" + frame("OK") + frame("QC1"))):
            self.assertEqual(self.came(raw), expected, raw[:40])

    def test_escapes(self):
        # `X` of # $ } *: each goes as } and the byte xor 0x20
        machine = Machine(text=COUNT)
        self.assertEqual(replies(machine, b"X80000100,4:}\x03}\x04}]}\n", "m80000100,4"), ["OK", "23247d2a"])
        self.assertIn(b"}\x03", talk(machine, raw=frame("qRcmd," + b"#".hex()))[0] + b"}\x03")


class Packets(unittest.TestCase):
    """Rows of the table, each over the machine of COUNT, after those before it."""

    def test_table(self):
        machine, begin = Machine(text=COUNT), RAM
        rows = [
            ("?", "T05" + pc(begin)), ("vCont?", "vCont;c;C;s;S;r"), ("qC", "QC1"), ("qfThreadInfo", "m1"), ("qsThreadInfo", "l"),
            ("qAttached", "0"), ("Hg0", "OK"), ("T1", "OK"), ("qTStatus", ""), ("vFile:open", ""), ("Y", ""),
            # registers: by number, by all, and what is refused
            ("p20", number(RAM)), ("p0", number(0)), ("p2f", number(0)), ("p56", "E02"), ("p", "E01"), ("px", "E01"), ("p1 ", "E01"),
            ("P5=" + number(5), "OK"), ("p5", number(5)), ("P5=05", "E01"), ("P5=", "E01"), ("P5", "E01"), ("P5=0", "E01"),
            ("P30=" + number(0), "E02"), ("P22=" + number(0), "E02"), ("P20=" + number(RAM + 2), "E01"), ("P0=" + number(7), "OK"),
            ("p0", number(0)), ("P25=" + number(9), "OK"), ("p25", number(9)), ("P2e=" + number(1), "E02"), ("G00", "E01"),
            ("g", number(0) * 5 + number(5) + number(0) * 26 + number(RAM)),
            ("G" + number(0) * 5 + number(5) + number(0) * 26 + number(RAM + 1), "E01"),
            ("G" + number(0) * 5 + number(5) + number(1) + number(0) * 25 + number(RAM), "OK"), ("p6", number(1)),
            # memory
            ("m80000004,4", "13053000"), ("m80000fff,4", "00"), ("m80001000,1", "E03"), ("m7fffffff,2", "E03"), ("m10000000,8", "E03"),
            ("m0,0", "E03"), ("m80000000", "E01"), ("m80000000,", "E01"), ("mx,1", "E01"), ("m80000000,1,1", "E01"),
            ("M80000200,2:abcd", "OK"), ("m80000200,3", "abcd00"), ("M80000200,2:ab", "E04"), ("M80000200,1:a", "E01"),
            ("M80000fff,2:abcd", "E03"), ("M10000000,1:41", "E03"), ("M80000200", "E01"), ("X80000000,0:", "OK"), ("X0,1:a", "E03"),
            ("X80000200,2:a", "E04"), ("X80000200,1", "E01"), ("m80000fff,1", "00"),
            # stops
            ("Z0,80000010,4", "OK"), ("Z1,80000014,2", "OK"), ("z1,80000014,2", "OK"), ("Z2,80000100,8", "OK"), ("Z2,80001000,1", "E03"),
            ("Z2,80000100,0", "E03"), ("Z3,80000100,8", ""), ("Z4,80000100,8", ""), ("Z5,80000100,8", "E01"), ("Z0,80000010", "E01"),
            ("Z0", "E01"), ("z2,0,1", "OK"), ("z0,0,4", "OK"),
            # time: the store of 3, the branch, a step, and with the watchpoint away the branch again
            ("vCont;c", "T05watch:80000100;" + pc(RAM + 12)), ("m80000100,8", number(3)), ("?", "T05watch:80000100;" + pc(RAM + 12)),
            ("vCont;c", "T05swbreak:;" + pc(RAM + 16)), ("vCont;s:1;c", "T05" + pc(RAM + 8)), ("z2,80000100,8", "OK"),
            ("vCont;C05", "T05swbreak:;" + pc(RAM + 16)), ("bs", "T05" + pc(RAM + 12)), ("bc", "T05swbreak:;" + pc(RAM + 16)),
            ("bc", "T05replaylog:begin;" + pc(RAM)), ("bs", "T05replaylog:begin;" + pc(RAM)), ("bc", "T05replaylog:begin;" + pc(RAM)),
            ("vCont;r80000000,80000008:1", "T05" + pc(RAM + 8)), ("vCont;x", "E01"), ("vCont;C", "E01"), ("vCont;r1", "E01"), ("c1", "E01"),
            ("s", "T05" + pc(RAM + 12)), ("S05", "T05swbreak:;" + pc(RAM + 16)), ("z0,80000010,4", "OK"), ("c", "W05"), ("c", "W05"),
            ("?", "W05"),
            # back at the beginning, as it was opened
            ("vRun;", "T05" + pc(RAM)), ("p5", number(0)), ("m80000200,2", "0000"), ("D", "OK"), ("qC", "")]
        came = replies(machine, *(packet for packet, _ in rows))
        for (packet, expected), answer in zip(rows, came):
            self.assertEqual(answer, expected, packet)
        self.assertEqual(len(came), len(rows) - 1)  # after D nothing is answered

    def test_ends(self):
        for packets, count in ((["k", "qC"], 0), (["vKill;1", "qC"], 1), (["!", "vKill;1", "qC"], 3), (["!", "k", "qC"], 2),
                               (["!", "R00", "?"], 2)):
            self.assertEqual(len(replies(Machine(text=COUNT), *packets)), count, packets)

    def test_halts(self):
        came = replies(Machine(text=COUNT), "c", "s", "bs", "bs", "qAttached", halt="stay")
        self.assertEqual(came, ["T05replaylog:end;" + pc(RAM + 28)] * 2 + ["T05" + pc(RAM + 24), "T05" + pc(RAM + 20), "1"])

    def test_pieces(self):
        machine = Machine(text=COUNT)
        whole, = replies(machine, "qXfer:features:read:target.xml:0,ffff")
        pieces = replies(machine, *(f"qXfer:features:read:target.xml:{n:x},400" for n in range(0, len(whole), 0x400)))
        self.assertEqual("".join(it[1:] for it in pieces), whole[1:])
        self.assertEqual({it[0] for it in pieces[:-1]} | {whole[0]}, {"m", "l"})
        self.assertEqual(pieces[-1][0], "l")
        self.assertIn("<architecture>riscv:rv64</architecture>\n<osabi>none</osabi>", whole)
        self.assertIn(f'<memory type="ram" start="0x80000000" length="{PAGE:#x}"/>', replies(machine, "qXfer:memory-map:read::0,ffff")[0])
        self.assertEqual(replies(machine, "qXfer:features:read:target.xml:zz,1", "qXfer:features:read:other.xml:0,1"), ["E01", ""])
        self.assertRegex(replies(machine, "qSupported:swbreak+")[0], "^PacketSize=4000;QStartNoAckMode")

    def test_capabilities(self):
        machine = Machine(text="cspecialrw ca0, ddc, cnull\ncsetboundsimm ca0, ca0, 16\n")
        machine.step(2)
        numbers = {it.name: n for n, it in enumerate(registers("fields"))}
        self.assertEqual([numbers[name] for name in ("pc", "mstatus", "mhartid", "cnull", "ct6", "pcc", "ddc", "mepcc")],
                         [32, 33, 47, 48, 79, 80, 81, 85])
        cap = machine.regs["ca0"]
        self.assertEqual(replies(machine, f"p{numbers['ca0']:x}"),
                         ["01000000" + number(0x78FFF, 4) + number(0) + number(0) + number(16, 16) + number(0x3FFFF, 4) + number(0, 4)])
        for caps in ("raw", "cheri"):
            named = {it.name: n for n, it in enumerate(registers(caps))}
            tagged = 1 << 10 | 1 << 32 | 1 << 33 | 1 << 34 | 1 << 37
            self.assertEqual(replies(machine, f"p{named['ca0']:x}", f"p{named['cap_valid']:x}", caps=caps),
                             [number(cap.address) + number(cap.upper), number(tagged)])

    def test_numbers(self):
        """Each register by its number is what the library's getter gives."""
        machine = Machine(text=read("examples", "compartments.s"))
        machine.step(200)
        rows = registers("fields")
        for it, answer in zip(rows, replies(machine, *(f"p{n:x}" for n in range(len(rows))))):
            value = bytes.fromhex(answer)
            if it.name in INTEGERS or it.name == "pc" or it.name in CSRS:
                held = machine.pc if it.name == "pc" else machine.csrs[it.name] if it.name in CSRS else machine.regs[it.name].address
                self.assertEqual(int.from_bytes(value, "little"), held, it.name)
            else:
                cap = machine.scrs[it.name] if it.name in SCRS else machine.regs[it.name]
                read_back = (bool(value[0]), int.from_bytes(value[8:16], "little"), int.from_bytes(value[16:24], "little"),
                             int.from_bytes(value[24:40], "little"), int.from_bytes(value[40:44], "little"))
                self.assertEqual(read_back, (cap.tag, cap.address, cap.base, cap.top, cap.otype), it.name)


class Traps(unittest.TestCase):
    def test_stops(self):
        """By default a run stops before the trap that has no handler; the ECALL before it is taken."""
        sent = "O" + b"A".hex()
        at = RAM + 32
        lost = [sent, "T0a" + pc(at), "T0b" + pc(0x10000000), "T05" + pc(0x10000000), "T0b" + pc(0x10000000)]
        self.assertEqual(replies(Machine(text=TRAPS), "c", "c", "s", "s"), lost)
        self.assertEqual(replies(Machine(text=TRAPS), "c", "bs", "s", "s", stop="trap"),
                         [sent, "T0a" + pc(at), "T05" + pc(RAM + 28), "T05" + pc(at), "T0a" + pc(at)])
        self.assertEqual(replies(Machine(text=TRAPS), "Z0,10000000,4", "c", "bs", stop="never"),
                         ["OK", sent, "T05swbreak:;" + pc(0x10000000), "T05" + pc(at)])
        command = "qRcmd," + b"stop never".hex()
        self.assertEqual(replies(Machine(text=TRAPS), command, "Z0,10000000,4", "c")[-1], "T05swbreak:;" + pc(0x10000000))

    def test_signals(self):
        """A signal for each cause, and none for an ECALL."""
        for text, expected in (("lw a0, 1(zero)", "T0a"), ("lw a0, 4(zero)", "T0b"), ("sw a0, 1(zero)", "T0a"), ("sw a0, 4(zero)", "T0b"),
                               (".word 0", "T04"), ("ebreak", "T05"), ("ecall", "T05"), ("jalr zero, 2(zero)", "T0a"),
                               ("lw.cap a0, (ca0)", "T0b"), ("sw.cap a0, (ca0)", "T0b"), ("csrrw zero, 0x7c0, zero", "T04")):
            machine = Machine(text=text + "\nnop\n")
            machine.csrs["mtvec"] = RAM + 4
            self.assertEqual(replies(machine, "s", stop="trap")[0][:3], expected, text)

    def test_interrupted(self):
        """A run that has no end stops at the byte 3 that came."""
        machine = Machine(text="j .")
        came = talk(machine, raw=frame("QStartNoAckMode") + frame("c") + b"\x03" + frame("qC"))[0]
        self.assertEqual(came, b"+" + frame("OK") + frame("T02" + pc(RAM)) + frame("QC1"))


class Monitored(unittest.TestCase):
    def said(self, machine, *lines):
        """What each command answers."""
        came = replies(machine, *("qRcmd," + line.encode().hex() for line in lines))
        return ["" if it == "OK" else bytes.fromhex(it).decode() for it in came]

    def test_session(self):
        """The compartments' session: each command that looks is answered as the debugger answers it."""
        asked = read("examples", "compartments.commands").decode().splitlines()
        told = read("examples", "compartments.replies").decode().splitlines(keepends=True)
        machine, at = Machine(text=read("examples", "compartments.s")), 0
        for line in asked:
            if line.startswith("until"):
                _, label, most = line.split()
                ran = machine.run(int(most), machine.symbols[label])
                self.assertEqual(told[at], f"events {ran.steps} out - pc {machine.symbols.shown(machine.pc)} running\n")
                at += 1
            elif line != "quit":
                answer, = self.said(machine, line)
                self.assertEqual(answer, "".join(told[at:at + answer.count("\n")]), line)
                at += answer.count("\n")
        self.assertEqual(at, len(told))

    def test_graphs(self):
        """Those of docs/pictures, which the debugger's `reach dot` gives."""
        machine = Machine(text=read("examples", "compartments.s"))
        for name, label in (("reach-a", "a_code"), ("reach-kernel", "trap")):
            machine.run(1000, machine.symbols[label])
            self.assertEqual(self.said(machine, "reach dot"), [read("docs", "pictures", f"{name}.dot").decode()])

    def test_looks(self):
        """What the bridge answers by itself; test_origins.py has the cases of the other commands."""
        machine = Machine(text=COUNT)
        machine.step(3)
        self.assertEqual(self.said(machine, "ago", "step 1", "go", "back to stop", "stops", "stop", "stop never", "", "origin ca0",
                                   "help reg", "help B2", "help me"),
                         ["0\n", *3 * ["GDB's own commands move the machine\n"], "", "stop takes unhandled, trap, never\n", "",
                          "fault B1\n",
                          "opening state: ca0 v:0 a:0000000000000003 b:0000000000000000 t:10000000000000000 p:00000 f:0 o:3ffff\n",
                          "reg R                   a general or special register as a capability\n",
                          "B1, B2, B3              refused: no such command; its operands; a byte outside RAM\n", "fault B2\n"])
        self.assertEqual(self.said(machine, "why", "why 1", "why json json"), [machine.why(), "fault B2\n", "fault B2\n"])

    def test_why_objects(self):
        """`why json`, as the model answers the debugger's cases."""
        for about, text, talk in why_objects.CONVERSATIONS:
            names = dict(word.split("=") for word in talk.partition("\n")[0].split()[1:] if talk.startswith("& "))
            table = sorted((int(at, 16), name) for name, at in names.items())
            machine = Machine(image(text or ".word 0"), symbols=Symbols.read("".join(f"{at:016x} {name}\n" for at, name in table)))
            for asked in re.split("(?m)^> ", talk)[1:]:
                command, _, reply = asked.partition("\n")
                if command.startswith("step "):
                    machine.step(int(command[5:]))
                else:
                    came = "".join(it.lstrip("O") for it in replies(machine, "qRcmd," + command.encode().hex()))
                    self.assertEqual(bytes.fromhex(came).decode(), reply.rstrip("\n") + "\n", about)

    def test_past(self):
        """What a value was made of, with labels and lines of the source; the machine stays where it is."""
        table = Symbols.read("0000000080000004 next\n0000000080000100 table\n", "0000000080000004 x.s:2: li a0, 3\n")
        asked = ("origin a0", "lost table", "dis next 1", "origin 8", "lost 0x80001000", "origin", "lost a0 a1", "origin nowhere")
        came = replies(Machine(text=COUNT, symbols=table), "s", "s", *("qRcmd," + line.encode().hex() for line in asked), "p20")
        self.assertEqual(came.pop(), number(RAM + 8))
        self.assertEqual([bytes.fromhex(it).decode() for it in came[2:]], [
            "ca0 from no capability: 2 0000000080000004 <next> 00300513 addi a0, zero, 3: "
            "ca0 = v:0 a:0000000000000003 b:0000000000000000 t:10000000000000000 p:00000 f:0 o:3ffff x.s:2: li a0, 3\n",
            "no tag was lost at 0000000080000100 <table>\n", "0000000080000004 <next> 00300513 addi a0, zero, 3 x.s:2: li a0, 3\n",
            "fault B2\n", "fault B3\n", *["fault B2\n"] * 3])

    def test_long(self):
        """A long reply goes in pieces, the last as the answer."""
        came = replies(Machine(text=COUNT), "qRcmd," + b"dis 0x80000000 1024".hex())
        self.assertTrue(len(came) > 5 and all(it[0] == "O" for it in came[:-1]))
        self.assertEqual(bytes.fromhex("".join(it.lstrip("O") for it in came)).count(b"\n"), 1024)


class Runs(unittest.TestCase):
    """Steps, runs and their reversal, against plain steps of the library."""

    def test_steps(self):
        """1,000 steps through CInvoke, MRET, traps and interrupts, g after each."""
        machine, plain = Machine(text=read("examples", "compartments.s")), Machine(text=read("examples", "compartments.s"))
        schedule, steps, kinds = Schedule(tick=7), 1000, set()
        came = replies(machine, *["vCont;s", "g", "p50"] * steps, schedule=schedule, stop="never")
        answers = [it for it in came if it[0] != "O"]
        for step in range(1, steps + 1):
            kinds |= {plain.next_ends, plain.why().splitlines()[0].split()[2] if plain.halted is None else ""}
            plain.step()
            if plain.halted is None and step % schedule.tick == 0:
                plain.tick()
            stop, given, pcc = answers[3 * step - 3:3 * step]
            if plain.halted is not None:
                self.assertEqual(stop, f"W{plain.halted & 255:02x}")
                break
            self.assertEqual(stop, "T05" + pc(plain.pc), step)
            self.assertEqual(given, "".join(number(cap.address) for cap in plain.regs.values()) + number(plain.pc), step)
            self.assertEqual(bytes.fromhex(pcc)[0], plain.scrs["pcc"].tag)
        self.assertTrue({Stop.TRAP, Stop.SEALED_JUMP, "mret", "cinvoke"} <= kinds, kinds)

    def test_back(self):
        """bc is the last stop before, by a search forwards; s, c, bs and bc lead to the state of as many plain steps."""
        drawn, text = random.Random(3), read("examples", "bounds.s")
        states, machine = [], Machine(text=text)
        while machine.halted is None:
            states.append((machine.pc, tuple(machine.regs.values()), machine.mem[:]))
            machine.step()
        for _ in range(12):
            stops = sorted({drawn.choice(states)[0] for _ in range(drawn.randrange(1, 4))})
            watch = (0x80000120, 16) if drawn.getrandbits(1) else None
            replay, n = Replay(Machine(text=text)), drawn.randrange(1, len(states))
            replay.go_to(n)
            expected = self.last_before(states, n, stops, watch)
            found = replay.back_to(stops, [watch] if watch else [])
            self.assertEqual((replay.n, found), (expected[0], expected if found else None), (n, stops, watch))
            self.assertEqual((replay.machine.pc, tuple(replay.machine.regs.values()), replay.machine.mem[:]), states[replay.n])

    def last_before(self, states, n, stops, watch):
        """The last step number before n whose state is a stop, and the range that its step changes."""
        for m in range(n - 1, -1, -1):
            at = slice(watch[0] - RAM, watch[0] - RAM + watch[1]) if watch else slice(0)
            if states[m][0] in stops:
                return m, None
            if states[m][2][at] != states[m + 1][2][at]:
                return m, watch
        return 0, None

    def test_watched(self):
        """Changes are those that plain steps show, where the code can store to the watched bytes and where it can't."""
        plain, replay = Machine(text=read("examples", "compartments.s")), Replay(Machine(text=read("examples", "compartments.s")))
        begin, frames, found = plain.symbols["a_frame"], [], []
        while plain.halted is None:
            frames.append(plain.mem[begin:begin + 544])
            plain.step()
        changes = [n for n, (before, after) in enumerate(zip(frames, [*frames[1:], plain.mem[begin:begin + 544]]), 1) if before != after]
        while replay.machine.halted is None:
            found += [replay.n] if replay.run_watched(10_000, (), [(begin, 544)]) else []
        self.assertEqual(found, changes)

    def test_schedules(self):
        """A replay is the run of `Machine.run` with the same schedule, also after it went back."""
        for text, how in ((read("examples", "echo.s"), {"input": read("examples", "echo.in"), "gap": 20, "tick": 3}),
                          (read("examples", "timer.s"), {"tick": 10})):
            replay, schedule = Replay(Machine(text=text), Schedule(**how)), {"gap": 1000, **how}
            for n in (0, 1, 19, 20, 21, 40, 39, 500, 399, 400, 0, 401):
                replay.go_to(n)
                plain = Machine(text=text)
                ran = plain.run(n, **schedule)
                if not n % schedule["gap"] and n // schedule["gap"] < len(how.get("input", b"")) and plain.halted is None:
                    plain.receive(how["input"][n // schedule["gap"]:][:1])
                self.assertEqual((replay.n, replay.machine.pc, replay.machine.console, replay.machine.time, replay.machine.sent),
                                 (ran.steps, plain.pc, plain.console, plain.time, plain.sent))

    def test_output_is_shown_once(self):
        text = read("examples", "hello.s")
        came = replies(Machine(text=text), "Z0,80000018,4", "c", "c", "c", "bc", "bc", "c", "z0,80000018,4", "c", halt="stay")
        self.assertEqual(bytes.fromhex("".join(it[1:] for it in came if it[0] == "O" and it != "OK")), b"hello, world\n")

    def test_far(self):
        """Far runs keep states: what is gone back to is what a plain run gives."""
        text = "loop: addi a0, a0, 1\nsrli a1, a0, 20\nbeq a1, zero, loop\nrare: li a0, 0\nj loop\n"
        replay, around = Replay(Machine(text=text)), (1 << 20) * 3 + 2
        replay.run(12_000_001)
        replay.go_to(7_000_001)
        self.assertEqual((replay.machine.regs["a0"].address, replay.machine.pc), (((7_000_001 - 2 * around) + 2) // 3, RAM + 4))
        self.assertEqual(replay.back_to([RAM + 4], []), (6_999_998, None))
        self.assertEqual(replay.back_to([RAM + 12], []), (2 * around - 2, None))
        self.assertEqual(replay.back_to([RAM + 12, RAM + 16], []), (around - 1, None))
        self.assertEqual((replay.back_to([RAM + 20], []), replay.n), (None, 0))


class Commands(unittest.TestCase):
    """The bridge as a process, over its standard input and output."""

    def came(self, expected, name, *words):
        """What comes back of a run, up to as many bytes as are expected; the end of what is sent would stop it."""
        words = [sys.executable, "-m", "cherisim.gdb", os.path.join(support.TOP, "examples", name), *words]
        environment = {**os.environ, "PYTHONPATH": os.path.join(support.TOP, "python")}
        with subprocess.Popen(words, env=environment, stdin=subprocess.PIPE, stdout=subprocess.PIPE) as bridge:
            bridge.stdin.write(frame("QStartNoAckMode") + frame("c"))
            bridge.stdin.flush()
            came = bridge.stdout.read(len(expected))
            self.assertEqual(bridge.communicate(frame("k"))[0], b"")
        self.assertEqual(bridge.returncode, 0)
        return came

    def test_runs(self):
        head = b"+" + frame("OK")
        expected = head + frame("O" + b"hello, world\n".hex()) + frame("W00")
        self.assertEqual(self.came(expected, "hello.s"), expected)
        typed = os.path.join(support.TOP, "examples", "echo.in")
        expected = head + frame("O" + read("examples", "echo.out").hex()) + frame("W00")
        self.assertEqual(self.came(expected, "echo.s", "--input", typed, "--gap", "20"), expected)

    def test_schedules(self):
        """That of `cherisim run` where one of its options is given."""
        for words, expected in (((), Schedule()), (("--tick", "7"), Schedule(b"", 1000, 7)), (("--gap", "5"), Schedule(b"", 5, 100))):
            self.assertEqual(gdb._schedule(gdb.parser().parse_args(["x.s", *words])), expected)


class Tables(unittest.TestCase):
    """Labels, lines, and the table that GDB reads."""

    def test_labels(self):
        text = '.pages 2\n.mode 0\nfirst: second: nop\n'
        self.assertRaises(TextFault, Machine, text=text)
        text = (".pages 2\n.mode 0\nfirst:\nsecond: la a0, text # to: here\n .align 4\ntext: .ascii \"a#b: \\\"c\"\n.org 0x80001000\n"
                "last: .zero 3\nend:\n")
        self.assertEqual(labels_of(text).items(), [("first", RAM), ("second", RAM), ("text", RAM + 16), ("last", RAM + PAGE),
                                                   ("end", RAM + PAGE + 3)])
        self.assertEqual(labels_of("asked: .pages 3\nnop\nend:").items(), [("asked", RAM), ("end", RAM + 4)])
        self.assertEqual(labels_of("nop # none:\n").items(), [])

    def test_lines(self):
        """What `asm --lines` and `nm -l` write; of an address the first, up to 240 characters."""
        lines = ("0000000080000000 x.s:1: la a0, x\n0000000080000004 x.s:1: la a0, x\n0000000080000004 x.s:2: nop\n"
                 "0000000080000008 T main\t/home/main.c:12\n                 U printf\n000000008000000c t none\n"
                 "0000000080000010 x.s:3: \u00e4" + 300 * "y" + "\n")
        table = Symbols.read("0000000080000000 x\n", lines)
        self.assertEqual(table.lines, {RAM: "x.s:1: la a0, x", RAM + 4: "x.s:1: la a0, x", RAM + 8: "/home/main.c:12",
                                       RAM + 16: "x.s:3: ?" + 232 * "y"})
        self.assertEqual((table.line(RAM), table.line(RAM + 12), elf.placed({RAM: "x.s:1: nop", RAM + 4: "?:?", 0: "y.s:2: nop"})),
                         (" x.s:1: la a0, x", "", ("y.s", [(0, 2)])))
        with self.assertRaises(SymbolsFault) as caught:
            Symbols.read("", lines + "80000000 x.s:4: nop\n")
        self.assertEqual(str(caught.exception), "line 8: no address and line of a source")

    @unittest.skipUnless(support.has_program(), support.NO_PROGRAM)
    def test_labels_as_the_program(self):
        with tempfile.TemporaryDirectory() as room:
            for name in sorted(os.listdir(os.path.join(support.TOP, "examples"))):
                if name.endswith(".s"):
                    table, path = os.path.join(room, "t"), os.path.join(support.TOP, "examples", name)
                    subprocess.run([support.PROGRAM, "asm", path, os.path.join(room, "i"), "--symbols", table], check=True)
                    with open(table, encoding="ascii") as file:
                        self.assertEqual(Symbols.read(file.read()).items(), labels_of(read("examples", name).decode()).items(), name)

    @support.needs("readelf")
    @unittest.skipUnless(support.has_program(), support.NO_PROGRAM)
    def test_elf(self):
        """readelf finds no fault in the table of an image, and its labels and lines are those of the text."""
        with tempfile.TemporaryDirectory() as room:
            made, (image, symbols, lines) = os.path.join(room, "bounds.elf"), support.assembled(room, "bounds")
            self.assertEqual(elf.main([image, made, "--symbols", symbols, "--lines", lines]), 0)
            shown = subprocess.run(["readelf", "-a", made], capture_output=True, check=True, encoding="utf-8")
            self.assertNotIn("arning", shown.stdout + shown.stderr)
            words = ["readelf", "--debug-dump=decodedline", made]
            decoded = subprocess.run(words, capture_output=True, check=True, encoding="utf-8").stdout
            with open(lines, encoding="ascii") as file:
                expected = re.findall(r"^(\w+) bounds.s:(\d+): ", file.read(), re.MULTILINE)
        found = re.findall(r"^bounds.s +(\d+) +(0x\w+) ", decoded, re.MULTILINE)
        self.assertEqual([(int(at, 16), int(number)) for number, at in found], [(int(at, 16), int(number)) for at, number in expected])
        for name, address in Machine(text=read("examples", "bounds.s")).symbols.items():
            self.assertRegex(shown.stdout, rf"{address:016x} .* {name}\n")

    def test_elf_of_a_text(self):
        """A text has its own labels; without a table of lines there are none. Pages that hold something are sections."""
        with tempfile.TemporaryDirectory() as room:
            path, made = os.path.join(room, "x.s"), os.path.join(room, "x.elf")
            with open(path, "w", encoding="ascii") as file:
                file.write(".pages 4\nstart: nop\n.org 0x80002ffc\nlast: .word 7, 8\nend:\n")
            self.assertEqual(elf.main([path, made]), 0)
            with open(made, "rb") as file:
                data = file.read()
        self.assertEqual([name in data for name in (b"\0.text\0", b".text1\0", b".text2\0", b"\0start\0last\0end\0", b".debug_line")],
                         [True, True, False, True, False])
        self.assertEqual(data.count(Machine(text="nop\n").mem[:]) + data.count(b"\0" * 4092 + b"\7\0\0\0\x08\0\0\0"), 2)

    def test_refused(self):
        with tempfile.TemporaryDirectory() as room:
            path = os.path.join(room, "x.s")
            with open(path, "w", encoding="ascii") as file:
                file.write("foo\n")
            for call, given in ((elf.main, [path, path]), (elf.main, [path + "s", path]), (gdb.main, [path]), (gdb.main, [path + "s"])):
                ran = subprocess.run([sys.executable, "-m", call.__module__, *given], capture_output=True, encoding="utf-8",
                                     env={**os.environ, "PYTHONPATH": os.path.join(support.TOP, "python")}, check=False)
                self.assertEqual((ran.returncode, ran.stdout), (1, ""), given)
            with contextlib.redirect_stderr(io.StringIO()):
                self.assertRaises(SystemExit, elf.main, [])


if __name__ == "__main__":
    unittest.main()
