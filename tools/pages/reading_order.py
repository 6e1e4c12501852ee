#!/usr/bin/env python3
"""The reading orders of docs/MODEL.md with the lines of each page, and what each file of definitions is.

    reading_order.py            writes the tables
    reading_order.py --check    says what is wrong with the orders or the tables, and ends with 1 if something is

The thirteen pages of the step have to be all files that steps/specs/Step names, directly or not, each after those that it names. And each
file that a crate's specs/Lib.antt has under *What to read*, or before any heading, stands on one page: what is missing, too much or too
early is printed.
"""
import os
import re
import sys

sys.path.insert(0, os.path.join(os.path.dirname(os.path.abspath(__file__)), ".."))
from pages import markdown
from pages.contracts import calls_of, definitions_of, sentence_of
from pages.made import fill
from toolchain import crates, folder_of

# The heading of specs/Lib.antt under which the files stand that a reader needs; files before any heading stand under it too.
TO_READ = "What to read"

# Pages: what each is about, and its files.
STEP = [
    ("words: fields, mantissas, windows", "base/specs/Bits; cap_format/specs/Word; cap_bounds/specs/Mantissa, Window"),
    ("capabilities: records, values", "base/specs/ObjectType; cap_bounds/specs/Least, Record, CapValue"),
    ("addresses and bounds that are set", "cap_bounds/specs/SetAddress, Rounding, SetBounds"),
    ("what may be derived", "cap_rights/specs/Permission, Perms, ObjectType, Opened, Derivations"),
    ("memory and its tags", "base/specs/Size, Ram; tagged_memory/specs/Memory"),
    ("the table of rows", "isa_rows/specs/Line, Forms, Shape, Insn, Kind, Decoded"),
    ("integer rows", "alu/specs/Integer"),
    ("capability rows", "cap_insns/specs/CapabilityRows"),
    ("faults, and which comes first", "base/specs/Registers, Fault, FirstFault; cap_checks/specs/Access, Question, FirstFault"),
    ("special registers and traps",
     "special_regs/specs/Scrs, Csrs, Numbered, Mtvec, CsrValues, Writes, Refusals, Interrupts, Traps"),
    ("devices", "devices/specs/Devices"),
    ("a state, and what an effect makes of it", "registers/specs/Registers; steps/specs/State, Effect"),
    ("the step: what each row asks, and what it does", "steps/specs/Looks, Accesses, ComputeRows, MemoryRows, JumpRows, SystemRows, Step"),
]
REST = [
    ("runs: the opening state, events, *machine run*, what is set from outside",
     "image/specs/Image; hart/specs/Opening; steps/specs/Outcome, Event; hart/specs/Setting; machine/specs/Run"),
    ("what is true of every state, steps in a row",
     "cap_bounds/specs/Root; special_regs/specs/Sound; devices/specs/Sound; steps/specs/IsState, IsEvent, Steps; machine/specs/Steps"),
    ("the same by other means: bounds as printed, planes of tags, words of operands, kept instructions",
     "word_cap/specs/Parts; tag_planes/specs/Planes; tagged_memory/specs/Planes; isa_rows/specs/Operands; code_memory/specs/Slots"),
    ("authority: what code can come to hold, change, learn and keep",
     "cap_rights/specs/Within, Rights; authority/specs/Reachable, Authority, Lent, Worlds, WorldLooks, Changes, Confined; "
     "steps/specs/Ends; machine/specs/Stretch"),
    ("what code can reach, and what that opens",
     "reached/specs/Reached, Links, Chain, Order; doors/specs/Roots; reach/specs/Reach, Opens, First, Ranges, Differs"),
    ("through doors, and by a policy",
     "doors/specs/Sets, Closed, Doors, Turn, Lent, Worlds, Through, ThroughOrder; "
     "cap_rights/specs/Opens; policy/specs/Terms, Rule, Watch, Tests, Opened, Lending, Run"),
    ("what holds for ever", "always/specs/Kept, Enclosed; every_run/specs/Opens, Known; every_run_texts/specs/Text"),
    ("worked states, which meet the premises of laws", "worked/specs/Counter, Pair, Loan, Enclosure"),
    ("image files", "image/specs/Grammar, Reads"),
    ("a text: its lines",
     "asm_names/specs/Mnemonic, Registers, SpecialNames, Slots; "
     "asm_lines/specs/Text, Number, Ranges, Operand, Words, Fills, Statement, Line"),
    ("a text: what it means", "assembler/specs/Places, Placed, Values, Bytes, Faults, Text"),
    ("a text: what is told of its first faulty line",
     "asm_lines/specs/Parts, Forms; assembler/specs/Standing, AtFault, Further; fault_details/specs/Reasons, Detail, SourceLines; "
     "hints/specs/Printable, Files"),
    ("shown texts, read again", "texts/specs/Hex, Piece; disassembler/specs/Shown; text_laws/specs/ReadBack, TextBack"),
    ("bounds, lengths and words, as texts",
     "cap_bounds/specs/WindowEnds; bounds_text/specs/Picture, BoundsText, Letters, LengthText, WordText"),
    ("what a step comes to, as text",
     "asm_names/specs/TrapNames; explain/specs/TrapText, ValueText, EffectText, TraceLine, WordLine, StandingText"),
    ("what the next step asks, and why", "explain/specs/Asked, WhyText"),
    ("what is shown, against the state; the numbers of texts on bounds", "text_laws/specs/Says, Shown, After, Bounds"),
    ("names and listings: tables of symbols, what they add to a listing, its lines",
     "symbols/specs/Symbols, Labels, Sources; image_listing/specs/Named, Listing, Header"),
    ("what code can reach, as text", "reach_texts/specs/Text, Asked, Summary"),
    ("the command line and runs on a schedule",
     "command_line/specs/CommandLine; schedules/specs/Schedule; sim_run/specs/Trace, Verdict, Unhandled, Ending, Stopping, Profile"),
    ("objects of JSON: bounds, words, steps and why, where a run ended, what code can reach, and what breaks a policy",
     "objects/specs/Items, Places; bounds_objects/specs/Bounds, Length, Word, Value; explain/specs/StepFields, WhyObjects, TraceObject; "
     "sim_run/specs/Object; reach_texts/specs/Object; breach_texts/specs/Object; policy_audit/specs/Object"),
    ("walks over a schedule, and who watches them", "schedules/specs/Whole, Walk, Pace, Both, Output"),
    ("policies as texts, runs that are watched by one, audits",
     "policy_text/specs/Policy, Sound; policy_runs/specs/Keeping; breach_texts/specs/Text; "
     "policy_audit/specs/Found, Told, Lines, Text, Entries"),
    ("where a value came from, where a tag was lost, who called whom",
     "origins/specs/Places, Making, Made, Tags, Kept, Search, Parts; past/specs/Replay, Position, Given; "
     "origin_texts/specs/Link, Stretches, Chain, Conditions, Origin, Copied, Lost, Calls, CallTrace"),
    ("sessions",
     "debug_commands/specs/Address, Command; debugger/specs/SessionState, Stops, Stepping, LastStop, Reaching, Reply, Answers, "
     "Conversation, Talk, OnSchedule"),
    ("what commands do with files",
     "commands/specs/Files, Programs, Loading, Assembling, Imaging, Bounding, Listing, Running, Watching, RunFaults, Auditing, Proving, "
     "Overwriting, FaultTexts; "
     "program/specs/Debugging, Telling, Carrying"),
    ("capabilities and the machine for C",
     "c_types/specs/Halves, Words; cheri_c/specs/Insns; "
     "cherisim_c/specs/Status, Made, Running, Stepping, Reaching, Questions, Refusals, Policies, Pasts, Links"),
]


def files_of(text):
    """The pairs of crate and file of a page."""
    for part in text.split("; "):
        crate, names = part.split("/specs/")
        yield from ((crate, name) for name in names.split(", "))


def source(file):
    """The text of a file, or nothing where this repository has none of that name."""
    path = os.path.join(folder_of(file[0]), "specs", file[1] + ".antt")
    if not os.path.exists(path):
        return ""
    with open(path, encoding="utf-8") as text:
        return text.read()


def named_from(first):
    """The files that a file names, and those that they name in turn."""
    found, left = set(), [first]
    while left:
        file = left.pop()
        if file not in found and source(file):
            found.add(file)
            left += re.findall(r"^(?:pub )?use Rattle\.(\w+)\.specs\.(\w+)\.\{", source(file), re.MULTILINE)
    return found


def too_early(pages):
    """The files that name one of a later page."""
    before = set()
    for _, text in pages:
        files = set(files_of(text))
        before |= files
        yield from (f"too early: {file}" for file in sorted(files) if named_from(file) - before)


def listed(crate):
    """The files of a crate's specs/Lib.antt, by their headings, in order."""
    found, heading = {}, TO_READ
    for line in source((crate, "Lib")).split("\n"):
        if line.startswith("-- "):
            heading = line[3:]
        elif line.startswith("pub mod "):
            found.setdefault(heading, []).append(line.split()[2])
    return found


def head_comment(file):
    """The first sentence of a file's first comment, which is mostly its head."""
    found = re.search(r"^(-- .*\n)+", source(file), re.MULTILINE)
    text = sentence_of(" ".join(line[3:].strip() for line in found.group().splitlines())) if found else ""
    return text[:1].upper() + text[1:]


def promised():
    """The files that contracts of public calls name."""
    names = {name for crate in crates() for call in calls_of(crate) for name in definitions_of(call)}
    return {tuple(name.split("/specs/")) for name in names}


def needed():
    """The files that pages or contracts of public calls need, directly or not."""
    return set().union(*[named_from(file) for file in {*pages_by_file(), *promised()}])


def pages_by_file():
    """The pages that each file stands on."""
    found = {}
    for order, pages in (("step", STEP), ("rest", REST)):
        for number, (_, text) in enumerate(pages, 1):
            for file in files_of(text):
                found.setdefault(file, []).append(f"{order} {number}")
    return found


def misplaced():
    """What is to be read and stands on no page or on several, and what stands on one and isn't to be read."""
    pages = pages_by_file()
    to_read = {(crate, name) for crate in crates() for name in listed(crate).get(TO_READ, [])}
    yield from (f"on no page: {file}" for file in sorted(to_read - set(pages)))
    yield from (f"on a page, and not under *{TO_READ}* of its Lib.antt: {file}" for file in sorted(set(pages) - to_read))
    yield from (f"on several pages: {file}: {', '.join(on)}" for file, on in sorted(pages.items()) if len(on) > 1)


def wrong_orders():
    """What is wrong with the orders."""
    on_step = {file for _, text in STEP for file in files_of(text)}
    named = named_from(("steps", "Step"))
    yield from (f"missing: {file}" for file in sorted(named - on_step))
    yield from (f"too much: {file}" for file in sorted(on_step - named))
    yield from too_early(STEP)
    yield from misplaced()


def order(pages):
    """The table of some pages."""
    rows = [[str(number), about, text, str(sum(source(file).count("\n") for file in files_of(text)))]
            for number, (about, text) in enumerate(pages, 1)]
    return markdown.table(["", "Page", "Files", "Lines"], rows)


def other_row(crate, heading, names, wanted):
    """The row of the files under another heading."""
    read_too = [name for name in names if (crate, name) in wanted]
    return [f"{crate}/specs: {', '.join(names)}", "", f"{heading}{'; needed: ' + ', '.join(read_too) if read_too else ''}"]


def definitions():
    """The files of each crate: what is to be read with its page and what it is, the others by their headings."""
    pages, wanted, rows = pages_by_file(), needed(), []
    for crate in crates():
        for heading, names in listed(crate).items():
            if heading == TO_READ:
                rows += [[f"{crate}/specs/{name}", ", ".join(pages.get((crate, name), [])), head_comment((crate, name)).replace("|", "\\|")]
                         for name in names]
            else:
                rows.append(other_row(crate, heading, names, wanted))
    return markdown.table(["File", "Page", "What it is"], rows)


MADE = {"the step": lambda: order(STEP), "the rest": lambda: order(REST), "definitions": definitions}


def main(given):
    if given not in ([], ["--check"]):
        print(__doc__)
        return 2
    wrong = list(wrong_orders())
    print("".join(line + "\n" for line in wrong), end="")
    well = fill("docs/MODEL.md", os.path.basename(__file__), lambda what: MADE[what](), bool(given))
    return 0 if well and not wrong else 1


if __name__ == "__main__":
    sys.exit(main(sys.argv[1:]))
