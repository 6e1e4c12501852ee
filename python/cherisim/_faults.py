"""What the library or the module refuses, as exceptions."""
from __future__ import annotations

from ._calls import CONSTANTS


class CherisimError(Exception):
    """What the library or this module refuses. `status` is the library's number for it, 0 where the module refuses."""

    status = 0


class ImageFault(CherisimError):
    """An image is invalid: `code` is L1 to L15."""

    def __init__(self, status: int) -> None:
        self.status, self.code = status, f"L{status}"
        super().__init__(f"{self.code} {_IMAGE_FAULTS.get(status, 'fault')}")


class TextFault(CherisimError):
    """A text in the assembly language has a fault: `code` is A1 to A11, and `line` is counted from 1."""

    def __init__(self, status: int, line: int) -> None:
        self.status, self.code, self.line = status, f"A{status - 32}", line
        super().__init__(f"line {line}: {self.code} {_TEXT_FAULTS.get(status - 32, 'fault')}")


class SymbolsFault(CherisimError):
    """A line of a table of labels or of lines of a source, counted from 1, has no address with such a name."""

    def __init__(self, line: int, what: str = "label") -> None:
        self.line = line
        super().__init__(f"line {line}: no address and {what}")


class PolicyFault(CherisimError):
    """A policy's text has a fault: `code` is P1 to P8, and `line` is counted from 1."""

    def __init__(self, status: int, line: int) -> None:
        self.status, self.code, self.line = status, f"P{status - 48}", line
        super().__init__(f"line {line}: {self.code} {_POLICY_FAULTS.get(status - 48, 'fault')}")


class OutOfMemory(CherisimError):
    """The host has no memory left; what was asked changes nothing."""

    status = 64


class Closed(CherisimError):
    """The machine was closed."""

    status = 65


class OutOfRange(CherisimError, LookupError):
    """There is no such register, an address lies outside RAM or is not aligned, or a value can't stand where it is put."""

    status = 66


class WrongThread(CherisimError):
    """A machine is used by another thread than the one that made it."""


class Remembered(CherisimError):
    """A machine that remembers is written to between two events, of which no past could tell: it stays as it is."""


class Pastless(CherisimError):
    """The machine remembers nothing: it was not made with `past=True`."""


_IMAGE_FAULTS = {
    1: "short header", 2: "magic", 3: "version", 4: "pages, entry or mode", 5: "too many sections", 6: "section outside RAM",
    7: "sections not ascending", 8: "truncated", 9: "bytes after the end", 10: "device failed", 11: "no memory", 12: "capability place",
    13: "capability not exact", 14: "permissions or flag", 15: "too many capabilities"}
_TEXT_FAULTS = {
    1: "unknown mnemonic", 2: "operands", 3: "immediate out of range", 4: "label twice", 5: "label unknown", 6: "target out of range",
    7: "place", 8: "byte not ASCII", 9: "line too long", 10: "no memory", 11: "capability not exact"}

_POLICY_FAULTS = {
    1: "neither a definition nor a rule", 2: "name unknown", 3: "name twice", 4: "number", 5: "range empty", 6: "part unknown",
    7: "part twice", 8: "part malformed"}


def in_range(what: str, number: int, bits: int, least: int = 0) -> None:
    """ctypes cuts a number that is too long for C: it is refused here."""
    if not least <= number < 1 << bits:
        raise OutOfRange(f"no {what} {number:#x}")


def refusal(status: int, call: str, line: int = 0) -> CherisimError:
    """The exception of a status."""
    if 1 <= status <= 15:
        return ImageFault(status)
    if 33 <= status <= 43:
        return TextFault(status, line)
    if 49 <= status <= 56:
        return PolicyFault(status, line)
    if status == CONSTANTS["LABELS"]:
        return SymbolsFault(line)
    for kind in (OutOfMemory, Closed, OutOfRange):
        if kind.status == status:
            return kind(f"{call}: {(kind.__doc__ or '').splitlines()[0]}")
    return CherisimError(f"{call}: status {status}")
