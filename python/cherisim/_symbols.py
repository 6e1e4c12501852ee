"""Labels with their addresses, and lines of sources with what they place: of tables as `cherisim asm` and `nm` write them, or of a text in
the assembly language."""
from __future__ import annotations

import re
from bisect import bisect_right
from typing import TYPE_CHECKING, Dict, Iterable, Iterator, List, Mapping, Optional, Tuple, Union

from ._faults import OutOfRange, SymbolsFault

if TYPE_CHECKING:
    from . import Machine

_NEAR = 4096  # a label stands after an address that lies fewer bytes above it
_LONGEST = 240  # characters that are shown of a line of a source
NAME = "[A-Za-z_.][A-Za-z0-9_.]*"
_ROW = re.compile(r"(?:([0-9A-Fa-f]{16})| {16})(?: (\S))? (\S+)")
_PLACED = re.compile(r"(?:([0-9A-Fa-f]{16})| {16}) (?:.*\t)?(.*)", re.DOTALL)
_DEFINED = re.compile(rf"^[ \t\r]*({NAME}):", re.MULTILINE)
_PAGES = re.compile(rf"^([ \t\r]*(?:{NAME}:)?)[ \t\r]*\.pages[ \t\r]+(\w+).*$", re.MULTILINE)
_WORD = 8  # bytes of an address in the table that a text is assembled with


class Symbols:
    """Labels with their addresses, in the order of their table, and lines of a source by the addresses of the instructions that they place.
    Of a name that stands twice the first address counts, and of an address that stands twice the first line."""

    __slots__ = ("_addresses", "_rows", "_table", "lines")

    def __init__(self, rows: Iterable[Tuple[str, int]] = (), lines: Optional[Mapping[int, str]] = None) -> None:
        self._addresses: Dict[str, int] = {}
        first: Dict[int, str] = {}
        text = ""
        for name, address in rows:
            self._addresses.setdefault(name, address)
            first.setdefault(address, name)
            text += f"{address:016x} {name}\n"
        self._rows: List[Tuple[int, str]] = sorted(first.items())
        self._table, self.lines = text.encode(), dict(lines or {})

    @classmethod
    def read(cls, text: str, lines: str = "") -> Symbols:
        """Those of a table of labels, and of a table of lines of a source. Passed over are names that are not labels, and those without an
        address; SymbolsFault names another line."""
        rows = []
        for number, line in enumerate(text.splitlines(), 1):
            found = _ROW.fullmatch(line)
            if not found or found[1] is None and found[2] is None:
                raise SymbolsFault(number)
            if found[1] is not None and re.fullmatch(NAME, found[3]):
                rows.append((found[3], int(found[1], 16)))
        return cls(rows, _lines_in(lines))

    def __getitem__(self, name: str) -> int:
        if name not in self._addresses:
            raise OutOfRange(f"no label {name!r}")
        return self._addresses[name]

    def __contains__(self, name: object) -> bool:
        return name in self._addresses

    def __iter__(self) -> Iterator[str]:
        return iter(self._addresses)

    def __len__(self) -> int:
        return len(self._addresses)

    def items(self) -> List[Tuple[str, int]]:
        """The labels with their addresses."""
        return list(self._addresses.items())

    def table(self) -> bytes:
        """Their table, as `cherisim asm --symbols` writes it."""
        return self._table

    def _label(self, address: int) -> Optional[Tuple[int, str]]:
        """The label at an address or fewer than 4096 bytes below it."""
        at = bisect_right(self._rows, (address, "\U0010ffff")) - 1
        return self._rows[at] if at >= 0 and address - self._rows[at][0] < _NEAR else None

    def near(self, address: int) -> str:
        """The label at an address or fewer than 4096 bytes below it, as `<table+16>`: empty where there is none."""
        found = self._label(address)
        if found is None:
            return ""
        begin, name = found
        return f"<{name}>" if begin == address else f"<{name}+{address - begin}>"

    def place(self, address: int) -> Dict[str, Union[str, int, None]]:
        """A place as objects of JSON have it (docs/JSON.md)."""
        begin, name = self._label(address) or (None, None)
        return {"address": f"0x{address:016x}", "label": name, "offset": None if begin is None else address - begin,
                "source": self.lines.get(address)}

    def shown(self, address: int) -> str:
        """An address in 16 hexadecimal digits, and the label near it."""
        return f"{address:016x} {self.near(address)}".rstrip()

    def line(self, address: int) -> str:
        """The line that places the instruction at an address, after a blank: empty where none is known."""
        return f" {self.lines[address]}" if address in self.lines else ""


def _lines_in(text: str) -> Dict[int, str]:
    """The lines of a source that a table names after their addresses, as far as they are shown."""
    found: Dict[int, str] = {}
    for number, line in enumerate(text.removesuffix("\n").split("\n") if text else (), 1):
        row = _PLACED.fullmatch(line)
        if not row:
            raise SymbolsFault(number, "line of a source")
        if row[1] is not None and ":" in row[2]:
            found.setdefault(int(row[1], 16), re.sub("[^ -~]", "?", row[2][:_LONGEST]))
    return found


def labels_of(text: str) -> Symbols:
    """The labels of a text that is assembled without a fault.

    C has no call that answers their addresses: they are read in the RAM of the same text, where they stand in pages of their own after
    those that the text asks for.
    """
    from . import PAGE, RAM, Machine  # which is made of this module, too
    names, asked = _DEFINED.findall(text), _PAGES.search(text)
    pages, size = int(asked[2], 0) if asked else 1, _WORD * len(names)
    begin = RAM + PAGE * pages
    whole = [f".pages {pages + 1 + size // PAGE}", _PAGES.sub(r"\1", text), f".org {begin:#x}", *(f".dword {name}" for name in names)]
    table = Machine(text="\n".join(whole)).mem[begin:begin + size]
    return Symbols((name, int.from_bytes(table[n:n + _WORD], "little")) for name, n in zip(names, range(0, size, _WORD)))


def _read(name: Optional[str]) -> str:
    """The text of a file, if there is one."""
    if name is None:
        return ""
    with open(name, encoding="latin-1", newline="\n") as file:
        return file.read()


def opened(name: str, labels: Optional[str] = None, lines: Optional[str] = None) -> Machine:
    """The machine of a file, which is an image, or a text where its name ends in .s; with the tables of these files, where they are given:
    a text has its own labels."""
    from . import Machine
    with open(name, "rb") as file:
        data = file.read()
    machine = Machine(text=data) if name.endswith(".s") else Machine(data)
    machine._symbols = Symbols.read(machine.symbols.table().decode() if labels is None else _read(labels), _read(lines))
    return machine
