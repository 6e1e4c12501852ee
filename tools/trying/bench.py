"""What the readers of cases share in a process: the libraries, the program, a folder, and machines to try instructions on."""
import os
import resource
import signal
import subprocess
import tempfile

from model.words import ROOT_HIGH

from .libraries import Cap, loaded
from .machines import MCAUSE, MTVAL, TRAP, Machine
from .rows import encoded

# What mcause holds before a step that may trap: no trap gives it.
UNTRAPPED = 0x5EED


class Bench:
    """The libraries and the program, and what is kept of them from case to case."""

    def __init__(self, library, program, folder):
        self.library, self.program = loaded(library), program
        self.folder = tempfile.mkdtemp(dir=folder)
        self.kept = {}

    def once(self, key, make):
        """What is made for the first case that asks, and kept."""
        if key not in self.kept:
            self.kept[key] = make()
        return self.kept[key]

    # ---- machines

    def root(self, address):
        """The capability of all addresses and permissions."""
        return Cap(address, ROOT_HIGH, True)

    def root_machine(self, pages=1):
        """A machine of empty RAM, as it begins."""
        return self.once(("root", pages), lambda: Machine.flat(self.library, pages=pages)).copy()

    def place(self, machine, name, rd=0, rs1=0, rs2=0, imm=0):
        """Puts an instruction where PCC stands."""
        machine.write(machine.pc(), encoded(self.library, name, rd, rs1, rs2, imm).to_bytes(4, "little"))

    def fault(self, machine, marks=True):
        """Does a step: the mcause and the mtval of its trap, or None. What ends a stretch says beforehand whether it traps; a mark in
        mcause tells it after the step, where the instruction isn't to see mcause."""
        traps = machine.next_ends() == TRAP
        if marks:
            machine.set_csr(MCAUSE, UNTRAPPED)
        machine.step()
        mcause = machine.csr(MCAUSE)
        if marks and traps != (mcause != UNTRAPPED):
            raise ValueError("cherisim_next_ends says otherwise of the step")
        return (mcause, machine.csr(MTVAL)) if traps else None

    def fault_of(self, machine, name, rd=0, rs1=0, rs2=0, imm=0):
        """The fault of an instruction that is put where PCC stands, or None."""
        self.place(machine, name, rd, rs1, rs2, imm)
        return self.fault(machine)

    # ---- the program

    def run(self, *words, given=b"", folder=None, **how):
        """What the program answers to a command line in a folder: its status, its output and what it tells."""
        ran = subprocess.run([self.program, *words], input=given, capture_output=True, cwd=folder or self.folder, timeout=60, check=False,
                             **how)
        return ran.returncode, ran.stdout, ran.stderr

    def run_cut(self, *words, limit):
        """The same where the output can't be written after so many bytes."""
        def cut():
            signal.signal(signal.SIGXFSZ, signal.SIG_IGN)
            resource.setrlimit(resource.RLIMIT_FSIZE, (limit, limit))
        path = self.file("sent", b"")
        with open(path, "wb") as sent:
            ran = subprocess.run([self.program, *words], stdin=subprocess.DEVNULL, stdout=sent, stderr=subprocess.PIPE, cwd=self.folder,
                                 timeout=60, check=False, preexec_fn=cut)
        return ran.returncode, self.contents("sent"), ran.stderr

    def file(self, name, contents):
        """Writes a file of the folder, and answers its path."""
        path = os.path.join(self.folder, name)
        with open(path, "wb") as file:
            file.write(contents)
        return path

    def contents(self, name):
        """What stands in a file of the folder, or None where there is none."""
        path = os.path.join(self.folder, name)
        if not os.path.exists(path):
            return None
        with open(path, "rb") as file:
            return file.read()

    def image_of(self, text, *options):
        """The image's file of a text, as the program assembles it, and None; or None, and what is told of a fault."""
        self.file("a.s", text)
        status, _, told = self.run("asm", "a.s", "a.img", *options)
        return (self.contents("a.img"), None) if status == 0 else (None, told.decode())
