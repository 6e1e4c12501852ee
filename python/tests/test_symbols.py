"""Labels in place of addresses, and what a notebook shows."""
import unittest
import xml.dom.minidom

from support import RAM, image, read
from cherisim import Cap, Machine, OutOfRange, Perms, Symbols, SymbolsFault

TEXT = "start: li a0, 1\napp: li a1, 2\nj app\ntable: .byte 1, 2, 3\nend:\n"


class Tables(unittest.TestCase):
    def test_read(self):
        """The rows of docs/ASSEMBLY.md: what `asm --symbols` and `nm` write."""
        table = Symbols.read("0000000080000000 hello\n0000000080000014 T next\n0000000080000800 D __global_pointer$\n"
                             "                 U printf\n0000000080000020 next\n0000000080000014 again\n")
        self.assertEqual(table.items(), [("hello", RAM), ("next", RAM + 20), ("again", RAM + 20)])
        self.assertEqual((table["next"], "printf" in table, len(table), list(table)), (RAM + 20, False, 3, ["hello", "next", "again"]))
        self.assertEqual([table.near(RAM + n) for n in (-1, 0, 4, 20, 21, 4127, 4128)],
                         ["", "<hello>", "<hello+4>", "<next>", "<next+1>", "<next+4095>", ""])
        self.assertEqual(table.shown(RAM), "0000000080000000 <hello>")
        self.assertRaises(OutOfRange, table.__getitem__, "printf")
        for number, line in enumerate(("80000000 T start", "0000000080000000", "x", "                 printf", ""), 2):
            with self.assertRaises(SymbolsFault) as caught:
                Symbols.read("0000000080000000 a\n" * (number - 1) + line + "\n")
            self.assertEqual((caught.exception.line, str(caught.exception)), (number, f"line {number}: no address and label"))

    def test_places(self):
        """A label stands where an address can."""
        machine = Machine(text=TEXT)
        self.assertEqual(machine.run(10, until="app").steps, 1)
        self.assertEqual((machine.mem["table"], machine.mem["table":"end"], machine.mem["table":RAM + 14]), (1, b"\1\2\3", b"\1\2"))
        machine.mem["table"] = 9
        machine.mem["table":"end"] = bytes([machine.mem["table"], 8, 7])
        self.assertEqual(machine.mem[RAM + 12:RAM + 15], b"\x09\x08\x07")
        self.assertEqual((machine.may_store("table", 3) is None, machine.address_of("end"), machine.address_of(5)), (False, RAM + 15, 5))
        self.assertEqual(machine.copy().symbols["app"], RAM + 4)
        for call in (lambda: machine.mem["nowhere"], lambda: machine.run(1, until="nowhere"), lambda: machine.may_load("nowhere", 1),
                     lambda: machine.cap_at("nowhere"), lambda: machine.address_of(1 << 64)):
            self.assertRaises(OutOfRange, call)
        self.assertEqual(machine.run(5, until="trap").steps, 5)

    def test_given(self):
        data, table = image([(RAM, b"\0" * 32)]), Symbols([("here", RAM + 16)])
        self.assertEqual(Machine(data, symbols=table).symbols["here"], RAM + 16)
        self.assertEqual(Machine(data, symbols="0000000080000010 here\n").address_of("here"), RAM + 16)
        machine = Machine.flat(b"\0" * 32, symbols=table)
        machine.set_cap("here", Cap.make(RAM, RAM + 16))
        self.assertEqual((machine.cap_at("here").tag, len(Machine(data).symbols)), (True, 0))
        self.assertEqual(Machine(text=TEXT, symbols=table).symbols.items(), table.items())
        self.assertRaises(SymbolsFault, Machine, data, symbols="here\n")


class Shown(unittest.TestCase):
    def parsed(self, it):
        """What a notebook shows, which is a well-formed piece of HTML."""
        return xml.dom.minidom.parseString(f"<div>{it._repr_html_()}</div>")

    def test_caps(self):
        cap = Cap.make(RAM, RAM + 64, address=RAM + 16, perms=Perms.Load | Perms.Store)
        shown = self.parsed(cap)
        self.assertEqual([it.firstChild.data for it in shown.getElementsByTagName("code") if it.firstChild],
                         ["yes", "0x80000010", "0x80000000", "0x80000040", "--RW--------"])
        bar, = shown.getElementsByTagName("rect")
        mark, = shown.getElementsByTagName("path")
        self.assertEqual((bar.getAttribute("x"), bar.getAttribute("width"), mark.getAttribute("d")), ("24.0", "312.0", "M102.0 3 v16"))
        for it in (Cap(), Cap.root(), cap.seal_entry(), Cap.make(5, 5), cap.clear_tag(), Cap((1 << 64) - 1, 0), cap.set_address(0)):
            self.assertEqual(len(self.parsed(it).getElementsByTagName("rect")), 1)

    def test_machines(self):
        machine = Machine(text=read("examples", "compartments.s"))
        machine.step(181)
        shown = self.parsed(machine)
        self.assertIn("0x80005000 <a_code>", shown.getElementsByTagName("p")[0].firstChild.nextSibling.firstChild.data)
        tagged = sum(cap.tag for cap in [*machine.regs.values(), *machine.scrs.values()])
        self.assertEqual(len(shown.getElementsByTagName("rect")), tagged)
        rows = self.parsed(machine.reach()).getElementsByTagName("tr")
        self.assertEqual(len(rows), 1 + len(machine.reach()))


if __name__ == "__main__":
    unittest.main()
