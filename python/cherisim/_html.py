"""What a notebook shows: a capability's bounds on the line of addresses, a machine's registers, and the members of a reach."""
from __future__ import annotations

from html import escape
from typing import TYPE_CHECKING, Iterable, Sequence, Tuple

from ._library import NULL_UPPER, SENTRY, UNSEALED

if TYPE_CHECKING:
    from . import Cap, Machine, Reach

_WIDTH, _MARGIN = 360, 24    # of the line, in pixels
_LETTERS = "GXRWcCLsiuSd"    # the permissions of bits 0 to 11, as docs/GLOSSARY.md has them
_TAGGED, _DATA = "#2b6cb0", "#a0aec0"


def letters(perms: int) -> str:
    """The hardware permissions in letters."""
    return "".join(letter if perms >> bit & 1 else "-" for bit, letter in enumerate(_LETTERS))


def _places(cap: Cap) -> Tuple[float, float, float]:
    """Where base, top and address lie on the line, in pixels: it goes from the least to the greatest of them."""
    least, most = min(cap.base, cap.address), max(cap.top, cap.address + 1)
    at = [_MARGIN + (_WIDTH - 2 * _MARGIN) * ((it - least) / (most - least)) for it in (cap.base, cap.top, cap.address)]
    return at[0], at[1], at[2]


def line_of(cap: Cap) -> str:
    """The bounds of a word as a bar on the line of addresses, and its address as a mark."""
    base, top, address = _places(cap)
    color = _TAGGED if cap.tag else _DATA
    return (f'<svg width="{_WIDTH}" height="22" role="img"><line x1="0" y1="11" x2="{_WIDTH}" y2="11" stroke="{_DATA}"/>'
            f'<rect x="{base:.1f}" y="5" width="{max(1.0, top - base):.1f}" height="12" fill="{color}"/>'
            f'<path d="M{address:.1f} 3 v16" stroke="#c53030" stroke-width="2"/></svg>')


def _fields(cap: Cap) -> Sequence[str]:
    kind = {UNSEALED: "", SENTRY: "sentry"}.get(cap.otype, f"sealed {cap.otype:#x}")
    return ("yes" if cap.tag else "no", f"{cap.address:#x}", f"{cap.base:#x}", f"{cap.top:#x}", letters(cap.perms), kind)


_HEADS = ("tag", "address", "base", "top", "permissions", "seal")


def _table(heads: Iterable[str], rows: Iterable[Sequence[str]]) -> str:
    """A table; the last cell of a row is drawn, and the others are text."""
    head = "".join(f"<th>{escape(it)}</th>" for it in heads)
    body = "".join("<tr>" + "".join(f"<td><code>{escape(it)}</code></td>" for it in row[:-1]) + f"<td>{row[-1]}</td></tr>" for row in rows)
    return f"<table><tr>{head}<th>bounds</th></tr>{body}</table>"


def cap_html(cap: Cap) -> str:
    """A capability: its fields, and its bounds drawn."""
    return _table(_HEADS, [(*_fields(cap), line_of(cap))])


def machine_html(machine: Machine) -> str:
    """A machine: whether it runs, the capabilities in its registers, and the numbers that are not 0."""
    halted = machine.halted
    state = "running" if halted is None else f"halted {halted}"
    caps = [*machine.regs.items(), *machine.scrs.items()]
    tagged = _table(("register", *_HEADS), [(name, *_fields(cap), line_of(cap)) for name, cap in caps if cap.tag])
    data = [(name, cap) for name, cap in caps if not cap.tag and (cap.address or cap.upper != NULL_UPPER)]
    numbers = ", ".join(f"{escape(name)} {cap.address:#x}" for name, cap in data)
    near = escape(machine.symbols.near(machine.pc))
    return f"<p>pc <code>{machine.pc:#x} {near}</code>, {state}</p>{tagged}<p><code>{numbers}</code></p>"


def reach_html(reach: Reach) -> str:
    """The members of a reach."""
    rows = []
    for it in reach:
        where = it.where if isinstance(it.where, str) else f"{it.where:#x}" if isinstance(it.where, int) else f"behind {it.where.sealed}"
        rows.append((str(it.number), where, "" if it.from_ is None else str(it.from_), *_fields(it.value), line_of(it.value)))
    return _table(("member", "where", "from", *_HEADS), rows)
