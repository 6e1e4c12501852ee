"""Cases of what each row over capabilities gives of capabilities and of data, by the rows that are worked by hand
(tools/model/worked.py) and by the model of values (tools/model/capabilities.py)."""

from cases.values import text
from model.capabilities import AUTHORITY, COMPARISON, IMMEDIATE, NUMBER, ONE, integer
from model.rights import UNSEALED
from model.words import NULL_HIGH, ROOT_HIGH, canonical
from model.worked import GROUPS, worked

WIDE_BOUNDS = 0xFFFFFFFFF4000000, 0xFFFFFFFFF8000000
# what the rows are given, by name
GIVEN = {
    "CODE": ("4095 bytes of code, with the flag.",
             (canonical(0x80001000, 0x80001FFF, 0xFFF7, 0, 1, UNSEALED), 0x80001804, True)),
    "WIDE": ("64 MiB, with an exponent.", (canonical(*WIDE_BOUNDS, 0x5A7F, 0, 0, UNSEALED), 0xFFFFFFFFF5000001, True)),
    "SEALED": ("The same, sealed.", (canonical(*WIDE_BOUNDS, 0x5A7F, 0, 0, 0x1234), 0xFFFFFFFFF5000001, True)),
    "MALFORMED": ("Data with E = 51, B = 0x3FF8, T = 0x1000: from 0xFFC0000000000000 to 0x8000000000000000.",
                  (0x00001FFFF8003FFF ^ NULL_HIGH, 0, False)),
    "RESERVED": ("Data with both reserved bits, permissions, the flag, a type and the exponent's field 58.",
                 (0xA5C3E0091FA5FF9A, 0xFEDCBA9876543210, False)),
    "NOTHING": ("Sixteen zero bytes.", integer(0)),
    "NUMBER": ("An integer.", integer(0x1235)),
    "ROOT": ("An authority over all types.", (ROOT_HIGH, 0x1234, True)),
    "KEY": ("An authority over the types from 0x1000 to 0x1FFF, which is not Global.",
            (canonical(0x1000, 0x2000, 0x0280, 0, 0, UNSEALED), 0x1234, True)),
}
VALUES = ["CODE", "WIDE", "SEALED", "MALFORMED", "RESERVED"]


def cases():
    """Each row with what it is given, by name or as an immediate, and its result."""
    for name, f in IMMEDIATE.items():
        for v in VALUES:
            for imm in (0x7F0, 0xFFFFFFFFFFFFF800 if name == "CIncOffsetImm" else 0xFFF):
                yield name, v, f"0x{imm:x}", f(GIVEN[v][1], imm)
    for name, f in NUMBER.items():
        for v in VALUES:
            for number in ("NUMBER", "RESERVED"):
                yield name, v, number, f(GIVEN[v][1], GIVEN[number][1][1])
    for name, f in AUTHORITY.items():
        for v in VALUES:
            for by in ("ROOT", "KEY", "RESERVED"):
                yield name, v, by, f(GIVEN[v][1], GIVEN[by][1])
    for name, f in COMPARISON.items():
        for v in VALUES:
            for a, b in ((v, v), (v, "ROOT"), ("ROOT", v), ("NOTHING", v)):
                yield name, a, b, f(GIVEN[a][1], GIVEN[b][1])
    for name, f in ONE.items():
        for v in VALUES:
            yield name, v, "", f(GIVEN[v][1])


def worked_line(line, names):
    """A line of hand-written cases with its names replaced."""
    row, first, second, rs1, ddc, result = worked(line, names)
    other = second if isinstance(second, str) else text(second)
    rest = "" if rs1 is None else f" {rs1} {text(ddc)}"
    return f"{row} {text(first)} {other}{rest} => {text(result)}"


def lines():
    yield "# a mnemonic, the value in rs1, the value in rs2 or the immediate, and the number of rs1 and DDC where they count => the result"
    for topic, names, table in GROUPS:
        yield f"# {topic}"
        for line in table.splitlines():
            yield line if line.startswith("#") else worked_line(line, names)
    yield "# each of the 28 rows over three capabilities, a malformed word, and one with reserved bits"
    rows = list(cases())
    assert len({name for name, *_ in rows}) == 28
    for name, first, second, result in rows:
        if name in IMMEDIATE:
            other = second[2:]
        else:
            other = text(GIVEN[second][1] if second else integer(0))
        yield f"{name.lower()} {text(GIVEN[first][1])} {other} => {text(result)}"


def files():
    yield "capability_rows.txt", list(lines())
