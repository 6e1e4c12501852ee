"""What the next step will do, and why, as objects of JSON have it (docs/JSON.md): read from the words of `Machine.why`."""
from __future__ import annotations

import re
from typing import TYPE_CHECKING, Any, Dict, Iterator, Mapping

from ._names import SCRS
from ._objects import capability, line
from ._symbols import Symbols

if TYPE_CHECKING:
    from . import Machine

_ADDRESS = "([0-9a-f]{16})"
_WORD = re.compile(rf"{_ADDRESS} ([0-9a-f]{{8}}) (.*)")
_CONDITION = re.compile("  (ok|no) (.*)")
_SIZED = re.compile("(?:load|store) of ([1-8]) bytes? at .*")
_TRAP = re.compile(rf"(?:trap|take) (.*), mcause {_ADDRESS}, mtval {_ADDRESS}")
_PLACED = re.compile(rf"\b(at|to|device) {_ADDRESS}(?! <)")
_CHERI = 28


class _Why:
    """The words of a machine that isn't halted, with labels."""

    def __init__(self, machine: Machine, symbols: Symbols) -> None:
        self._machine, self._symbols = machine, symbols
        *self._lines, self._effect = machine.why().splitlines()

    def _held(self, register: str) -> Mapping[str, Any]:
        held = self._machine.scrs if register in SCRS else self._machine.regs
        return {"capability": capability(held[register])}

    def _bytes(self, address: str, size: str) -> Dict[str, Any]:
        return {"address": self._symbols.place(int(address, 16)), "size": int(size)}

    def _asked(self, words: str, size: str) -> Dict[str, Any]:
        """What a condition asks, by its words; the size is that of the access whose condition it is."""
        bounds = re.fullmatch(rf"length of (\w+): {_ADDRESS} \+ (\d+) in .*", words)
        if bounds:
            register, address, count = bounds.groups()
            return {"asks": "bounds", "register": register, **self._bytes(address, count), **self._held(register)}
        multiple = re.fullmatch(rf"a multiple of (\d+): {_ADDRESS}", words)
        if multiple:
            return {"asks": "multiple", **self._bytes(multiple[2], multiple[1])}
        ram = re.fullmatch(f"RAM( or a device)? at {_ADDRESS}", words)
        if ram:
            return {"asks": "ram_or_device", **self._bytes(ram[2], size)} if ram[1] else {
                "asks": "ram", "address": self._symbols.place(int(ram[2], 16))}
        right = re.fullmatch(r"(.*) of (\w+)", words)
        if right and not words.startswith("the"):
            return {"asks": "right", "right": right[1], "register": right[2], **self._held(right[2])}
        return {"asks": "instruction" if words == "the word is an instruction" else "system_register"}

    def _objects(self) -> Iterator[Dict[str, Any]]:
        found = _WORD.fullmatch(self._lines[0]) if self._lines else None
        yield {"pcc": self._symbols.place(self._machine.scrs["pcc"].address), "word": f"0x{found[2]}" if found else None,
               "instruction": found[3] if found else None}
        size = ""
        for words in self._lines:
            condition, sized = _CONDITION.fullmatch(words), _SIZED.fullmatch(words)
            size = sized[1] if sized else size
            if condition:
                yield {"holds": condition[1] == "ok", **self._asked(condition[2], size)}
        effect = self._effect[len("effect: "):]
        trap = _TRAP.fullmatch(effect)
        yield {"effect": _PLACED.sub(lambda it: f"{it[1]} {self._symbols.shown(int(it[2], 16))}", effect), "trap": trap and {
            "mcause": f"0x{trap[2]}", "mtval": f"0x{trap[3]}",
            "words": trap[1] if int(trap[2], 16) == _CHERI else f"{trap[1]}, mtval {trap[3]}"}}

    def text(self) -> str:
        return "".join(map(line, self._objects()))


def why_objects(machine: Machine, symbols: Symbols) -> str:
    """The objects of a machine's next step, one a line; or the number that it halted with."""
    return _Why(machine, symbols).text() if machine.halted is None else line({"halted": f"0x{machine.halted:016x}"})
