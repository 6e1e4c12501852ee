"""Values in the lines of cases: a capability word's high half, its address and its tag; and bytes."""

from model.words import is_well_formed


def text(value):
    """A value as it stands in a line."""
    high, address, tag = value
    assert not tag or is_well_formed(high, address)
    return f"{high:016x} {address:x} {int(tag)}"


def bytes_text(contents):
    """Bytes: of one value by it and their count, `-` for none."""
    if len(contents) > 1 and len(set(contents)) == 1:
        return f"{contents[0]:02x}*{len(contents)}"
    return contents.hex() or "-"
