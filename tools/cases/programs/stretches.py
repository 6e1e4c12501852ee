"""Stretches: how many events they meet, and why they end."""

from model.rights import CINVOKE, EXECUTE, LOAD

from .items import BOTH, ENTRY, WITHOUT_SYSTEM_ACCESS, line, number, sealed, shaped
from .machines import FIRST_IMAGE, STANDING, prepared


def made(*parts):
    """The statements of parts in order."""
    return [item for part in parts for item in ([part] if isinstance(part, str) else part)]


def last(mode, *parts, ends=True):
    """A case in which the last word of a program would end a stretch, or not: asked, tried, and then done."""
    items = made(*parts)
    return line(mode, items, f"steps {len(items) - 1}", "ends", "address pcc", "stretch s", *(["step"] if ends else []), "trap")


def runs():
    yield "# the console's interrupt ends a stretch, which meets the byte and the ticks before it"
    yield prepared("stretch btts", "ends", STANDING, "sent", "step", STANDING, "stretch sss", "a0", STANDING, "step", "mcause")
    yield "# the first image is one stretch, and a step of a halted machine belongs to it"
    yield line(0, FIRST_IMAGE, "stretch ssssss; sent; halted; ends")
    yield "# bytes on the line, of which 64 wait; and no event"
    yield line(0, ["nop"], f"stretch {65 * 'b'}; waiting; overrun; stretch -; sent; mcycle")


def outcomes():
    pair = [shaped("a0", EXECUTE | CINVOKE, 16, 4), sealed("a0", 5), shaped("a1", LOAD | CINVOKE, 32, 9), sealed("a1", 5)]
    sealed_value = [shaped("a0", LOAD, 16, 0), sealed("a0", 5)]
    for mode in BOTH:
        yield "# an invocation, a jump through a sentry, and one to what is not sealed"
        yield last(mode, *pair, "cinvoke ca0, ca1")
        yield last(mode, shaped("a0", EXECUTE, 16, 0), "csealentry ca0, ca0", "jalr.cap cnull, ca0")
        yield last(mode, shaped("a0", EXECUTE, 16, 0), "jalr.cap cnull, ca0", ends=False)
        yield "# an unsealing that gives a capability, and one that gives none"
        yield last(mode, *sealed_value, "cunseal ca1, ca0, ct6")
        yield last(mode, *sealed_value, "cincoffsetimm ct6, ct6, 1", "cunseal ca1, ca0, ct6", ends=False)
        yield "# a call of the system"
        yield line(mode, ["nop", "ecall"], "step; ends; stretch s; address pcc; step; mcause")
    yield "# code without system access may jump to code that has it, which reads MTCC: all that is one stretch"
    items = made("cspecialrw ca0, ddc, cnull", number("t0", ENTRY + 0x100), "csetaddr ca0, ca0, t0", WITHOUT_SYSTEM_ACCESS)
    yield line(1, [*items, "cjalr cnull, 0(ca0)", f".org {ENTRY + 0x100:#x}", "cspecialrw ca1, mtcc, cnull"],
               f"steps {len(items)}; stretch ss; a1")


def cases():
    yield from runs()
    yield from outcomes()
