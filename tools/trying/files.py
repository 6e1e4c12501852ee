"""The files of cases: where they stand, who reads their cases, how many there are, and how many the proved program alone tries."""
from typing import Callable, NamedTuple

from . import (capabilities, checks, command_lines, commands, conversations, devices, image_cases, instructions, kernel, lines, memory,
               naming, paths, policies, programs, reaching, registers, schedules, texts, told)
from .reading import blocks_of, lines_of


class File(NamedTuple):
    """A file of cases."""
    name: str
    reader: Callable
    cases: int
    # how many of them the proved program alone tries
    left: int = 0
    # how many are tried as one piece of work
    piece: int = 100

    def read(self):
        """Its cases."""
        with open(paths.cases_of(self.name), encoding="utf-8", newline="") as file:
            text = file.read()
        return list(blocks_of(text) if self.name in ("sessions", "pasts") else lines_of(text))


FILES = [
    File("words", capabilities.word, 674),
    File("parts", capabilities.parts, 385),
    File("windows", capabilities.window, 1641),
    File("requests", capabilities.request, 402),
    File("agreements", capabilities.agreement, 3000),
    File("rights", capabilities.right, 246, 18),
    File("capability_rows", capabilities.capability_row, 445),
    File("accesses", checks.access, 199),
    File("jumps", checks.jump, 87, 9),
    File("invocations", checks.invocation, 68),
    File("csrs", registers.script, 135),
    File("special", registers.script, 519),
    File("traps", registers.script, 62),
    File("devices", devices.script, 142, 2),
    File("memory", memory.script, 47),
    File("searches", memory.search, 45),
    File("integers", instructions.integer, 388, 12),
    File("encodings", instructions.encoding, 430),
    File("images", image_cases.image, 597, 1),
    File("programs", programs.program, 714),
    File("advances", programs.program, 680),
    File("assembled", texts.first_section, 481, piece=40),
    File("faults", texts.first_section, 154, piece=40),
    File("hints", texts.hint, 149, piece=20),
    File("assemblies", texts.parts, 21, piece=4),
    File("image_files", texts.image_file, 9),
    File("lines", lines.line, 264, 3),
    File("names", naming.name, 103, 1),
    File("shown", instructions.shown, 701),
    File("digits", instructions.digits, 3),
    File("bounds", command_lines.bounds, 81, piece=20),
    File("lengths", command_lines.length, 69, piece=20),
    File("word_texts", command_lines.word, 126, piece=20),
    File("sessions", conversations.session, 206, piece=10),
    File("pasts", conversations.session, 373, piece=10),
    File("talks", conversations.talk, 171, piece=20),
    File("runs", programs.program, 15),
    File("plans", command_lines.plan, 326, piece=10),
    File("listings", command_lines.listing, 42),
    File("worlds", programs.worlds, 14),
    File("schedules", schedules.schedule, 211, piece=8),
    File("commands", commands.command, 868, piece=20),
    File("objects", commands.command, 173, piece=20),
    File("policies", commands.command, 363, piece=20),
    File("callers", commands.command, 81, piece=20),
    File("audits", commands.command, 65, piece=20),
    File("proofs", commands.command, 99, piece=20),
    File("told", told.fault, 53, piece=10),
    File("compartments", kernel.meeting, 34),
    File("reaches", reaching.reach, 43, piece=8),
    File("breaches", policies.breach, 31, piece=4),
]
