"""The encodings of docs/PROGRAMMING.md: the formats of instruction words and the rows of the instruction table, read from
isa_rows/specs/Shape, Forms and Line."""
import re

from pages.definitions import Definitions, NotUnderstood, bare, declared, items, matched, split, text_of, worth
from pages.markdown import table

SHAPE = Definitions("isa_rows/specs/Shape")
FORMS = Definitions("isa_rows/specs/Forms")
LINE = Definitions("isa_rows/specs/Line")


def format_fields(format_):
    """The fields of a format, from the lowest on: name, first bit, number of bits."""
    first, count = ({pattern.split()[0].strip("("): body for pattern, body in SHAPE.cases(name)} for name in ("first_bit", "bit_count"))
    for field in items(dict(SHAPE.cases("fields_of"))[format_]):
        name, *numbers = field.split()
        if name == "Imm":
            at, low, bits = map(int, numbers)
            yield f"imm[{low + bits - 1}:{low}]" if bits > 1 else f"imm[{low}]", at, bits
        else:
            yield name.lower(), int(first[name]), int(count["_"])


def mask_of(format_):
    """The bits that the rows of a format fix: all but those of its fields."""
    if LINE.body("mask_of") != "2 ^ 32 - 1 - operand_mask (fields_of format)":
        raise NotUnderstood(f"{LINE.file}: mask_of")
    return 2 ** 32 - 1 - sum((2 ** bits - 1) << at for _, at, bits in format_fields(format_))


def format_table():
    signed = dict(SHAPE.cases("is_signed"))
    rows = []
    for format_, _ in SHAPE.cases("fields_of"):
        placed = [f"{name} at {at + bits - 1}..{at}" if bits > 1 else f"{name} at {at}"
                  for name, at, bits in reversed(list(format_fields(format_)))]
        has_immediate = any(text.startswith("imm") for text in placed)
        sign = {"true": "signed", "false": "unsigned"}[signed[format_]] if has_immediate else ""
        rows.append([format_, f"`{mask_of(format_):#010x}`", ", ".join(placed) or "none", sign])
    return table(["Format", "Mask", "Operands", "Immediate"], rows)


def slot_text(slot, capability_mode):
    """An operand as it is written in a mode."""
    name, *rest = slot.strip("()").split()
    if name in ("Rd", "Rs1", "Rs2", "Address", "Authority"):
        register = {"Address": "rs1", "Authority": "rs1"}.get(name, name.lower())
        if {"Integer": False, "Capability": True, "ByMode": capability_mode}[rest[0]]:
            register = "c" + register.removeprefix("r")
        return {"Address": f"imm({register})", "Authority": f"({register})"}.get(name, register)
    return {"Signed": "imm", "Unsigned": "imm", "Upper": "imm", "Small": "imm", "Csr": "csr", "Special": "scr", "Target": "target"}[name]


def form_slots(form):
    """The slots of a form, with its arguments put in."""
    name, *arguments = split(bare(form), " ")
    parameters, body = FORMS.cases(name)[0]
    slots = items(body)
    for parameter, argument in zip(parameters.split(), map(bare, arguments)):
        slots = [re.sub(rf"\b{parameter}\b", argument.removeprefix("slot."), slot) for slot in slots]
    return slots


def row_line(body):
    """Value, format and both names with operands, of a row's line."""
    body = bare(body)
    if body.startswith("moving "):
        body = bare(split(body, " ")[-1])
    head, value, format_, _, form, *names = split(body, " ")
    if head not in ("line", "two_names"):
        raise NotUnderstood(f"no line of a row: {body}")
    names = [matched(r'codes "([a-z.]+)"', bare(name)).group(1) for name in names]
    written = [f"{name} {', '.join(slot_text(slot, mode) for slot in form_slots(form))}".strip()
               for mode, name in ((False, names[0]), (True, names[-1]))]
    return worth(value), format_, written


def row_groups():
    """The headings of the instruction table, each with its rows."""
    headings, cases = [], iter(LINE.cases("line_of"))
    heading = None
    for line in text_of("isa_rows/specs/Line.antt").split("\n"):
        if line.startswith("-- "):
            heading = re.sub(r" \(.*\)$", "", line[3:])
        if line.startswith("line_of row."):
            pattern, body = next(cases)
            if not line.startswith(f"line_of {pattern} = "):
                raise NotUnderstood(f"{LINE.file}: {line}")
            if heading is not None:
                headings.append((heading, []))
            heading = None
            headings[-1][1].append((pattern.removeprefix("row."), *row_line(body)))
    return headings


def rows_table():
    """The rows, a table a group."""
    parts, seen = [], set()
    for heading, rows in row_groups():
        cells = []
        for row, value, format_, (integer, capability) in rows:
            mask = mask_of(format_)
            if value & ~mask or (mask, value) in seen:
                raise NotUnderstood(f"{LINE.file}: {row}")
            seen.add((mask, value))
            cells.append([f"`{mask:#010x}`", f"`{value:#010x}`", format_, f"`{integer}`",
                          "the same" if capability == integer else f"`{capability}`"])
        parts.append(f"**{heading}**\n\n" + table(["Mask", "Value", "Format", "In integer mode", "In capability mode"], cells))
    return "\n\n".join(parts)


def row_names():
    """Each row as it is written in integer mode."""
    return {row: written[0] for _, rows in row_groups() for row, _, _, written in rows}


def row_count():
    count = sum(len(rows) for _, rows in row_groups())
    declared_ = declared("isa_rows/src/table.rt", r"pub const ROWS: \[Row; (\d+)\] = .*;")[0][0].group(1)
    if int(declared_) != count:
        raise NotUnderstood(f"crates/isa_rows/src/table.rt has {declared_} rows, and {LINE.file} {count}")
    return str(count)
