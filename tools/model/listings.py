"""A model of texts with names: what stands after an address, which lines stand before a row of a listing, and what stands after one that
is a branch or jal. A table is pairs of an address and a name, in their order."""
import re

# How near below an address a label is that names it.
NEAR = 4096


def name_of(address, table):
    """A place in names: the label at an address or nearest below it, of several at one address the first; nothing where none is near."""
    places = [place for place, _ in table if place <= address < place + NEAR]
    if not places:
        return ""
    place = max(places)
    name = next(name for other, name in table if other == place)
    return f" <{name}>" if place == address else f" <{name}+{address - place}>"


def named_address(address, table):
    """An address with its name."""
    return f"{address:016x}{name_of(address, table)}"


def with_names(text, table, mark=r"(?<!:)\b([0-9a-f]{16})\b"):
    """A text with names after its addresses: all that stand alone, or those with a mark."""
    return re.sub(mark, lambda found: named_address(int(found[1], 16), table), text)


def named(rows, table):
    """The rows of a listing without names, each after the labels of its address, in the order of the table."""
    lines = []
    for row in rows.splitlines():
        address = int(row[:16], 16)
        lines += [f"{name}:" for place, name in table if place == address]
        leads = re.search(r" [0-9a-f]{8} (?:b\w+|jal) .*\.([+-]\d+)$", row)
        lines.append(row + name_of((address + int(leads[1])) % (1 << 64), table) if leads else row)
    return "".join(f"{line}\n" for line in lines)


def table_text(table):
    """A table of symbols, with a line for each."""
    return "".join(f"{address:016x} {name}\n" for address, name in table)
