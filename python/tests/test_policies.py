"""Policies: the compartments of cases/breaches.txt, whose rows an independent model gives; each part and each fault of a text."""
import ast
import re
import unittest

from support import RAM, read
from cherisim import Cap, Machine, OutOfRange, Perms, Policy, PolicyFault, Stop, SymbolsFault
from cherisim._html import letters
from cherisim._replay import Replay, Schedule
from trying.kernel import STEPS, kernel_and_pieces
from trying.policies import policy_of
from trying.reaching import mistaken

TOLD = re.compile(r"cherisim: steps (\d+), pcc ([0-9a-f]+).*\ncherisim: policy: line (\d+): (\w+)\n  rule  .*\n  held  (.*)\n")
# lui a1, 0x10000; addi a0, zero, 65; sb a0, 0(a1); lui a1, 0x100; sd zero, 0(a1)
FIRST = "lui a1, 0x10000\naddi a0, zero, 65\nsb a0, 0(a1)\nlui a1, 0x100\nsd zero, 0(a1)\n"


def rows():
    """Each row of the cases: the kernel's text, the ticks, the policy, and the status, what is sent and what is told."""
    kernel, pieces = kernel_and_pieces()
    for line in read("cases", "breaches.txt").decode().splitlines():
        if line.startswith("#"):
            continue
        inputs, _, outputs = line.partition(" => ")
        mistake, a, b, tick, *callers = inputs.split()
        status, sent, told = re.fullmatch(r'(\d) ("(?:[^"\\]|\\.)*") ("(?:[^"\\]|\\.)*")', outputs).groups()
        text = mistaken("".join([kernel, *(pieces[name] for name in [*b.split("+"), *a.split("+")])]), mistake)
        yield text, int(tick), policy_of(callers), int(status), ast.literal_eval(sent), ast.literal_eval(told)


class Cases(unittest.TestCase):
    def test_compartments(self):
        stopped = 0
        for text, tick, rules, status, sent, told in rows():
            machine = Machine(text=text)
            watched = machine.watch(rules, STEPS, tick=tick)
            self.assertEqual((watched.ran.sent.decode(), watched.breach is not None), (sent, status == 1), told)
            if watched.breach is None:
                self.assertEqual((watched.ran.stop, machine.halted), (Stop.HALTED, 0))
                continue
            stopped += 1
            steps, pc, line, part, held = TOLD.search(told).groups()
            step, found_line, found_part, member, way = watched.breach
            self.assertEqual((step - 1, machine.pc, found_line, found_part), (int(steps), int(pc, 16), int(line), part))
            self.assertEqual(watched.ran.steps, int(steps))
            self.assertTrue(held.endswith(str(member.value)) and held.startswith(str(way[0].where)), held)
            self.assertEqual(machine.watch(Policy.read(rules, machine.symbols), STEPS).breach, watched.breach._replace(step=1))
        self.assertGreater(stopped, 6)

    def test_parts(self):
        for part in ("store", "load", "execute", "keep", "transmit", "halt", "timer", "system", "seal"):
            machine = Machine(text=FIRST)
            ran, breach = machine.watch(f"\nwhen pc in {RAM + 8:#x}..+4: {part} no", 1000)
            self.assertEqual((ran, breach[:3]), ((2, b"", Stop.STEPS, None), (3, 2, part)))
            self.assertEqual((breach.member.where, breach.way, machine.pc), ("pcc", (breach.member,), RAM + 8))
            self.assertIsNone(machine.watch("", 1000).breach)
            self.assertEqual((machine.sent, machine.halted), (b"A", 0))
            self.assertIsNone(machine.watch(f"when pc in 0..{RAM * 2:#x}: {part} no", 9).breach)
        machine = Machine(text="nop\n")
        machine.regs["ca0"] = Cap.make(RAM, RAM + 16, otype=7, perms=Perms.Load)
        machine.scrs["pcc"], machine.scrs["ddc"] = machine.scrs["pcc"].and_perms(Perms.Execute), 0
        self.assertEqual(machine.copy().watch("when pc in 0x80000000..+4: types 8", 5).breach[:3], (1, 1, "types"))
        self.assertIsNone(machine.watch("when pc in 0x80000000..+4: types 7", 5).breach)

    def test_enter(self):
        machine = Machine(text="nop\n")
        machine.regs["ca0"] = Cap.make(RAM + 8, RAM + 16, otype=7, perms=Perms.Execute)
        machine.scrs["pcc"], machine.scrs["ddc"] = Cap.make(RAM, RAM + 4, perms=Perms.Execute), 0
        rule = f"when pc in {RAM:#x}..+4: execute within {RAM:#x}..+4, enter within "
        self.assertEqual(machine.copy().watch(f"{rule}control", 1).breach[:3], (1, 1, "enter"))
        self.assertIsNone(machine.watch(f"{rule}{RAM + 8:#x}..+1", 1).breach)

    def test_input(self):
        """The byte before the step that isn't done has come, as those before it."""
        machine = Machine(text="nop\n" * 8)
        self.assertEqual(machine.watch("when pc in 0x80000010..+4: store no", 8, input=b"abcdef", gap=2).breach.step, 5)
        self.assertEqual((machine.console.waiting, machine.csrs["minstret"]), (b"abc", 4))


ESCAPES = {"n": b"\n", "t": b"\t", "r": b"\r", "0": b"\0"}


def unquoted(text):
    """The bytes of a text as the cases have it."""
    return re.sub(rb"\\([ntr0]|x[0-9a-f]{2})", lambda it: ESCAPES.get(it[1].decode()) or bytes([int(it[1][1:], 16)]), text.encode())


def audited(machine, breaches, text, steps, given):
    """What `cherisim audit` writes of breaches: each with the state before its step."""
    told = ""
    for step, line, part, member, way in breaches:
        at = Replay(machine.copy(), Schedule(given.get("input", b""), given["gap"], given["tick"]))
        at.go_to(step - 1)
        places = (it.where if isinstance(it.where, str) else machine.symbols.shown(it.where) for it in way)
        rule = text.splitlines()[line - 1].partition("#")[0].strip(" \t\r")
        told += (f"step {step}, pcc {machine.symbols.shown(at.machine.pc)}\npolicy: line {line}: {part}\n  rule  {rule}\n"
                 f"  held  {' -> '.join(places)} {letters(member.value.perms)} {member.value}\n")
    return told


class Audits(unittest.TestCase):
    def test_cases(self):
        """The rows of cases/audits.txt with a policy, which an independent model gives."""
        seen = 0
        for row in read("cases", "audits.txt").decode().splitlines():
            found = re.fullmatch(r'cherisim audit first.img (\d+)(.*?) --policy p(.*?) \| (.*) => ([01]) \| .*? \| "(.*?)" \| .*', row)
            if not found or any(it in row for it in ("--quiet", "--times", "--trace")):
                continue
            steps, _, options, files, _, written = found.groups()
            held = {name: unquoted(data) for name, data in re.findall(r'(\S+) "(.*?)"', files)}
            given = {"gap": 1000, "tick": 100, **{name: int(number) for name, number in re.findall(r"--(gap|tick) (\d+)", options)}}
            if "--input" in options:
                given["input"] = held["keys"]
            machine, text = Machine(held["first.img"], symbols=held.get("t", b"").decode()), held["p"].decode()
            breaches = machine.audit(text, int(steps), **given)
            self.assertEqual(audited(machine, breaches, text, int(steps), given), unquoted(written).decode(), row[:200])
            self.assertEqual(machine.csrs["minstret"], 0)
            seen += 1
        self.assertGreater(seen, 20)


class Proofs(unittest.TestCase):
    def test_cases(self):
        """The rows of cases/proofs.txt about an image, which an independent model gives."""
        seen = 0
        for row in read("cases", "proofs.txt").decode().splitlines():
            found = re.fullmatch(r'cherisim prove first.img --policy p(?: --symbols t)?(?: --steps (\d+))? \| (.*) => ([01]) \| .*? \| "(.*?)" \| .*',
                                 row)
            if not found:
                continue
            steps, files, status, written = found.groups()
            held = {name: unquoted(data) for name, data in re.findall(r'(\S+) "(.*?)"', files)}
            machine = Machine(held["first.img"], symbols=held.get("t", b"").decode())
            shown, told = machine.prove(held["p"].decode(), *([int(steps)] if steps else []))
            self.assertEqual((shown, told), (status == "0", unquoted(written).decode()), row[:200])
            self.assertEqual(machine.csrs["minstret"], 0)
            seen += 1
        self.assertGreater(seen, 50)

    def test_from_here(self):
        """A proof is of the runs from where the machine stands."""
        machine = Machine(text="lui a0, 1\nnop\n")
        self.assertEqual(machine.prove("any code in 0x80000004..+4"), (False, "not shown: system\n  held  pcc\n"))
        machine.step()
        machine.scrs["mtcc"], machine.scrs["mepcc"], machine.scrs["ddc"] = 0, 0, 0
        machine.scrs["pcc"] = machine.scrs["pcc"].set_bounds(4)[0].and_perms(Perms.Execute)
        self.assertTrue(machine.prove("any code in 0x80000004..+4\nwhen pc in 0..0x80001000: load no, store no, system no").shown)


class Texts(unittest.TestCase):
    def test_labels(self):
        machine = Machine(text="nop\nthere: nop\n")
        self.assertEqual(machine.copy().watch("when pc in there..+4: store no", 5).breach.step, 2)
        policy = Policy.read("here = there..+4\nwhen pc in here: store no", "0000000080000000 there\n")
        self.assertEqual((machine.watch(policy, 5).breach.step, repr(policy)), (1, "<Policy of 2 lines>"))

    def test_faults(self):
        for text, code, line in (("no", "P1", 1), ("when pc in a..+4: store no", "P2", 1), ("A = 0..1\n\nA = 1..2", "P3", 3),
                                 ("A = 0..0x1ffffffffffffffff", "P4", 1), ("A = 5..5", "P5", 1), ("when pc in 0..1: fly no", "P6", 1),
                                 ("when pc in 0..1: halt no, halt yes", "P7", 1), ("when pc in 0..1: halt maybe", "P8", 1)):
            with self.assertRaises(PolicyFault) as caught:
                Policy.read(text)
            self.assertEqual((caught.exception.code, caught.exception.line), (code, line))
        with self.assertRaises(SymbolsFault) as caught:
            Policy.read("", "start 0\n")
        self.assertEqual(caught.exception.line, 1)

    def test_ranges(self):
        machine = Machine(text="nop\n")
        for steps, given in ((10**14 + 1, {}), (-1, {}), (1, {"gap": 0}), (1, {"gap": 1000001}), (1, {"tick": 1000001}),
                             (1, {"tick": 1 << 64})):
            self.assertRaises(OutOfRange, machine.watch, "", steps, **given)
        self.assertEqual(machine.csrs["minstret"], 0)


if __name__ == "__main__":
    unittest.main()
