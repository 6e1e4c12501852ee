"""The programs of python/examples, and the package that pip installs."""
import doctest
import importlib.util
import io
import json
import os
import re
import runpy
import struct
import subprocess
import sys
import tempfile
import unittest
import zipfile

import support
from support import said
import fuzz
import property as holds
import rvfi
from cherisim import REGISTERS, Cap, Machine, Stop
from cherisim._calls import CONSTANTS
from cherisim.records import operands


class Examples(unittest.TestCase):
    def test_policy(self):
        _, out = said(runpy.run_path, os.path.join(support.TOP, "python", "examples", "policy.py"))
        self.assertEqual(out, "stores to its 16 bytes, and nowhere else\n")

    def test_property(self):
        status, out = said(holds.main, ["--count", "2000", "--seed", "7"])
        self.assertEqual(status, 0)
        self.assertIn("none elsewhere", out)

    def test_a_leak_is_found(self):
        status, out = said(holds.main, ["--count", "20000", "--leak", "16"])
        self.assertEqual(status, 1)
        self.assertIn("A changes what it does not hold", out)

    def test_property_has_all_rows(self):
        self.assertEqual({(mask, value) for value, mask, _ in holds.rows()}, {row[:2] for row in support.encodings()})

    def test_fuzz(self):
        status, out = said(fuzz.main, ["--seed", "1"])
        self.assertEqual(status, 0)
        self.assertRegex(out, r"the input 4348\w+ traps:")
        self.assertIn("effect: trap CHERI exception, length violation at ca2", out)


class Records(unittest.TestCase):
    def trace(self, text, steps):
        machine = Machine(text=text)
        return [rvfi.record(machine, order) for order in range(steps)]

    def test_fields(self):
        records = self.trace("lui a1, 0x10000\nli a0, 65\nsb a0, 0(a1)\nauipc a2, 0\nld a3, -12(a2)\nsc zero, 52(a2)\nadd a4, a0, a1\n"
                             "mv zero, a0\n", 8)
        self.assertEqual([it["rd_addr"] for it in records], [11, 10, 0, 12, 13, 0, 14, 0])
        self.assertEqual([(it["rs1_addr"], it["rs2_addr"]) for it in records],
                         [(0, 0), (0, 0), (11, 10), (0, 0), (12, 0), (12, 0), (10, 11), (10, 0)])
        self.assertEqual([it["pc_rdata"] for it in records], [support.RAM + 4 * n for n in range(8)])
        self.assertEqual((records[2]["mem_addr"], records[2]["mem_wmask"], records[2]["mem_wdata"]), (0x10000000, 1, 65))
        self.assertEqual([records[4][name] for name in ("mem_addr", "mem_rmask", "mem_rdata")], [support.RAM, 0xFF, 0x04100513100005B7])
        self.assertEqual([records[5][name] for name in ("mem_addr", "mem_wmask", "mem_wdata")], [support.RAM + 64, 0xFFFF, 0])
        self.assertEqual((records[6]["rs1_rdata"].address, records[6]["rd_wdata"].address), (65, 65 + 0x10000000))
        self.assertEqual([(it["trap"], it["halt"], it["intr"]) for it in records], [(0, 0, 0)] * 8)

    def test_traps(self):
        records = self.trace("li a0, 1\nlw a1, 3(zero)\n", 3)
        self.assertEqual([(it["trap"], it["rd_addr"], it["mem_rmask"], it["pc_wdata"]) for it in records],
                         [(0, 10, 0, support.RAM + 4), (1, 0, 0, 0), (1, 0, 0, 0)])
        self.assertEqual([it["insn"] for it in records], [0x00100513, 0x00302583, 0])

    def test_operands(self):
        for text, expected in (("beq a0, a1, .+8", (10, 11, 0)), ("csb a0, 5(ca1)", (11, 10, 0)), ("cinvoke ca0, ca1", (10, 11, 31)),
                               ("cld a0, -8(ca1)", (11, 0, 10)), ("csrrw a0, mscratch, a1", (11, 0, 10)), ("jal ra, .+8", (0, 0, 1)),
                               ("csrrwi a0, mstatus, 8", (0, 0, 10)), ("cspecialrw ca0, ddc, ca1", (11, 0, 10)), ("mret", (0, 0, 0)),
                               ("fence zero, a0, 255", (0, 0, 0)), ("sc.cap ca2, (ca3)", (13, 12, 0)), ("csub a0, ca1, ca2", (11, 12, 10)),
                               ("cjalr cra, 0(ca0)", (10, 0, 1)), (".word 0x00000000", (0, 0, 0)), ("lui a0, 0x10", (0, 0, 10))):
            self.assertEqual((text, operands(text)), (text, expected))

    def test_written(self):
        name = os.path.join(support.TOP, "examples", "hello.s")
        lines, blocks = io.BytesIO(), io.BytesIO()
        rvfi.main([name, "1000"], lines)
        rvfi.main([name, "1000", "--packed"], blocks)
        records = [json.loads(line) for line in lines.getvalue().splitlines()]
        self.assertEqual((len(records), records[-1]["halt"], len(blocks.getvalue())), (67, 1, 67 * 88))
        sent = [it["mem_wdata"] for it in records if it["mem_addr"] == 0x10000000]
        self.assertEqual(bytes(sent), b"hello, world\n")
        for order, (it, fields) in enumerate(zip(records, struct.iter_unpack("<10Q8B", blocks.getvalue()))):
            self.assertEqual(fields[:4], (order, it["pc_rdata"], it["pc_wdata"], it["insn"]))
            self.assertEqual(fields[6:8], (it["rd_wdata"]["address"], it["mem_addr"]))


    @unittest.skipUnless(support.has_program(), support.NO_PROGRAM)
    def test_as_the_trace(self):
        """Each record says what the line of `cherisim run --trace` says."""
        with tempfile.TemporaryDirectory() as room:
            made, trace = os.path.join(room, "x.img"), os.path.join(room, "x.trace")
            for name in ("compartments", "sealed", "list", "primes", "bounds", "granted"):
                subprocess.run([support.PROGRAM, "asm", os.path.join(support.TOP, "examples", f"{name}.s"), made], check=True)
                words = [support.PROGRAM, "run", made, "100000", "--tick", "0", "--trace", trace]
                subprocess.run(words, check=True, stdout=subprocess.PIPE)
                machine = rvfi.machine_of(made)
                with open(trace, encoding="ascii") as file:
                    for order, line in enumerate(file):
                        self.assertEqual(self.traced(rvfi.record(machine, order)), self.read(line), line)
                self.assertIsNotNone(machine.halted)

    def traced(self, it):
        """What a record says that a line of a trace says, too: a store of a capability by its bounds and all."""
        size = it["mem_wmask"].bit_length()
        stored = str(Cap.from_memory(it["mem_wdata"].to_bytes(16, "little"))).partition(" ")[2] if size == 16 else it["mem_wdata"]
        written = (it["rd_addr"], str(it["rd_wdata"])) if it["rd_addr"] else None
        stores = (size, it["mem_addr"], stored) if size else None
        return it["order"] + 1, it["pc_rdata"], it["insn"], it["text"], it["trap"], stores, written

    def read(self, line):
        """The same of the line."""
        head, _, effect = line.rstrip("\n").partition(": ")
        number, pc, word, text = head.split(" ", 3)
        data, cap = re.search(r"store (\d) bytes? at (\w+): (\w+)", effect), re.match(r"store capability at (\w+): v:. (.*)", effect)
        stored = (int(data[1]), int(data[2], 16), int(data[3], 16)) if data else (16, int(cap[1], 16), cap[2]) if cap else None
        gets = re.match(r"(c\w+) = (v:.*? o:\w+)", effect)
        written = (REGISTERS[gets[1]], gets[2]) if gets else None
        return int(number), int(pc, 16), int(word, 16), text, int(effect.startswith("trap")), stored, written


class Page(unittest.TestCase):
    def test_blocks(self):
        """The blocks of docs/PYTHON.md run, one after the other, and the first prints what the page says."""
        blocks = re.findall(r"^```python\n(.*?)^```", support.read("docs", "PYTHON.md").decode(), re.MULTILINE | re.DOTALL)
        names, before, printed, runner = {}, os.getcwd(), [], doctest.DocTestRunner()
        os.chdir(support.TOP)
        try:
            for block in blocks:
                if block.startswith(">>>"):
                    self.assertEqual(runner.run(doctest.DocTestParser().get_doctest(block, names, "page", None, 0)).failed, 0)
                else:
                    printed.append(said(exec, block, names)[1])
        finally:
            os.chdir(before)
        self.assertEqual(printed, ["b'hello, world\\n' 67 0\n", ""])


class Headers(unittest.TestCase):
    def test_made(self):
        """What crosses to C is what the headers say, and so are the numbers of Stop."""
        status, out = said(runpy.run_path(os.path.join(support.TOP, "python", "headers.py"))["main"], ["--check"])
        self.assertEqual(status, 0, out)
        self.assertEqual({name: Stop[name].value for name in Stop.__members__}, {name: CONSTANTS[name] for name in Stop.__members__})


class Installed(unittest.TestCase):
    def test_wheel(self):
        spec = importlib.util.spec_from_file_location("backend", os.path.join(support.TOP, "python", "backend.py"))
        backend = importlib.util.module_from_spec(spec)
        spec.loader.exec_module(backend)
        with tempfile.TemporaryDirectory() as room:
            with zipfile.ZipFile(os.path.join(room, backend.build_wheel(room))) as wheel:
                wheel.extractall(os.path.join(room, "site"))
            self.assertTrue(backend.build_sdist(room).endswith(".tar.gz"))
            code = "import cherisim; print(cherisim.__file__, cherisim.Machine(text='li a0, 42').run(1).steps)"
            environment = {**os.environ, "PYTHONPATH": os.path.join(room, "site")}
            if not os.path.exists(backend.LIBRARY):
                self.skipTest("no library to put into the wheel")
            out = subprocess.run([sys.executable, "-c", code], env=environment, cwd=room, stdout=subprocess.PIPE, check=True,
                                 encoding="utf-8")
            self.assertEqual(out.stdout.split(), [os.path.join(room, "site", "cherisim", "__init__.py"), "1"])

    @unittest.skipUnless(importlib.util.find_spec("pip"), "pip is not installed")
    def test_pip(self):
        words = ["install", "-q", "--no-index", "--no-deps", "--disable-pip-version-check", "--root-user-action=ignore"]
        with tempfile.TemporaryDirectory() as site:
            subprocess.run([sys.executable, "-m", "pip", *words, "--target", site, os.path.join(support.TOP, "python")], check=True)
            self.assertTrue(os.path.exists(os.path.join(site, "cherisim", "__init__.py")))


if __name__ == "__main__":
    unittest.main()
