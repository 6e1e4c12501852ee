"""Cases of the checks before accesses, jumps and invocations: the first fault of an ordered list."""

from cases.values import text
from model.capabilities import capability, untagged
from model.faults import CHERI, EXECUTES, INVOKES, LENGTH, LOADS, SEAL, STORES, STORES_CAPABILITY, STORES_LOCAL, TAG, TYPE
from model.rights import ALL, CINVOKE, EXECUTE, GLOBAL, LOAD, SENTRY, STORE, STORE_CAPABILITY, STORE_LOCAL, UNSEALED
from model.words import SPACE

OWN_TYPE, OTHER_TYPE = 5, 6
A0, A1, PCC, DDC = 10, 11, 32, 33
BASE, TOP = 0x80001000, 0x80001010
# where the bounds of the same cases lie above 2^63
HIGH = 0xFFFFFFFF80000000


def cheri(register, cause):
    """A fault of the CHERI exception: mcause and mtval."""
    return f"{CHERI:x} {32 * register + cause:x}"


def misaligned(mcause, address):
    return f"{mcause:x} {address:x}"


def around(base):
    """Capabilities of 16 and of 32 bytes from a base on."""
    def narrow(address, perms=ALL, otype=UNSEALED):
        return capability(base, base + 16, address, perms, 0, otype)

    def wide(perms=ALL, otype=UNSEALED):
        return capability(base, base + 32, base, perms, 0, otype)
    return narrow, wide


def word_accesses(base):
    """Loads and stores of four bytes: the first fault, and each alone."""
    narrow, _ = around(base)
    for name, permission, lacking, mcause in (("load", LOAD, LOADS, 4), ("store", STORE, STORES, 6)):
        def line(authority, address, answer):
            return f"{name} 4 {A0} {text(authority)} {address:x} => {answer}"
        good, weak = narrow(base), narrow(base, ALL ^ permission)
        sealed, weak_and_sealed = narrow(base, ALL, OWN_TYPE), narrow(base, ALL ^ permission, OWN_TYPE)
        yield f"# {name}: from each condition on all are false"
        yield line(untagged(weak_and_sealed), base + 18, cheri(A0, TAG))
        yield line(weak_and_sealed, base + 18, cheri(A0, SEAL))
        yield line(weak, base + 18, cheri(A0, lacking))
        yield line(good, base + 18, cheri(A0, LENGTH))
        yield line(good, base + 6, misaligned(mcause, base + 6))
        yield f"# {name}: each condition alone, and none"
        yield line(untagged(good), base + 4, cheri(A0, TAG))
        yield line(sealed, base + 4, cheri(A0, SEAL))
        yield line(narrow(base, ALL, SENTRY), base + 4, cheri(A0, SEAL))
        yield line(weak, base + 4, cheri(A0, lacking))
        yield line(good, base + 16, cheri(A0, LENGTH))
        yield line(good, base + 4, f"{base + 4:x}")
        yield line(narrow(base, permission), base + 4, f"{base + 4:x}")


def sizes(base):
    narrow, _ = around(base)
    yield "# an address is a multiple of the size"
    for size, offset, fits in ((1, 15, True), (2, 14, True), (2, 13, False), (4, 12, True), (4, 10, False), (8, 8, True), (8, 4, False)):
        for name, mcause in (("load", 4), ("store", 6)):
            address = base + offset
            answer = f"{address:x}" if fits else misaligned(mcause, address)
            yield f"{name} {size} {A0} {text(narrow(base))} {address:x} => {answer}"


def ends(base):
    """Loads at the ends of 16 bytes and of the address space."""
    small, root = around(base)[0](base), capability(0, SPACE, 0)
    yield "# the bytes lie in the bounds, in whole numbers"
    for authority, size, address, holds in (
            (small, 8, base, True), (small, 8, base - 8, False), (small, 1, base - 1, False), (small, 8, base + 8, True),
            (small, 1, base + 15, True), (small, 1, base + 16, False), (small, 8, base + 12, False), (small, 1, 0, False),
            (small, 1, SPACE - 1, False),
            (root, 1, 0, True), (root, 1, SPACE - 1, True), (root, 8, SPACE - 8, True),
            # the last byte is 2^64, and not 0
            (root, 2, SPACE - 1, False), (root, 8, SPACE - 4, False)):
        answer = f"{address:x}" if holds else cheri(A0, LENGTH)
        yield f"load {size} {A0} {text(authority)} {address:x} => {answer}"


def local_stores(base):
    """Stores of a local capability: the first fault, and each alone."""
    _, wide = around(base)

    def line(authority, address, answer):
        return f"storec local {A1} {text(authority)} {address:x} => {answer}"
    none = ALL ^ STORE ^ STORE_CAPABILITY ^ STORE_LOCAL
    yield "# a store of a local capability: from each condition on all are false"
    for authority, address, answer in (
            (untagged(wide(none, OWN_TYPE)), 24, cheri(A1, TAG)),
            (wide(none, OWN_TYPE), 24, cheri(A1, SEAL)),
            (wide(none), 24, cheri(A1, STORES)),
            (wide(ALL ^ STORE_CAPABILITY ^ STORE_LOCAL), 24, cheri(A1, STORES_CAPABILITY)),
            (wide(ALL ^ STORE_LOCAL), 24, cheri(A1, STORES_LOCAL)),
            (wide(), 24, cheri(A1, LENGTH)),
            (wide(), 8, misaligned(6, base + 8))):
        yield line(authority, base + address, answer)
    yield "# a store of a local capability: each condition alone, and none"
    for authority, address, answer in (
            (untagged(wide()), 16, cheri(A1, TAG)),
            (wide(ALL, OWN_TYPE), 16, cheri(A1, SEAL)),
            (wide(ALL, SENTRY), 16, cheri(A1, SEAL)),
            (wide(ALL ^ STORE), 16, cheri(A1, STORES)),
            (wide(ALL ^ STORE_CAPABILITY), 16, cheri(A1, STORES_CAPABILITY)),
            (wide(ALL ^ STORE_LOCAL), 16, cheri(A1, STORES_LOCAL)),
            (wide(), 32, cheri(A1, LENGTH)),
            (wide(), 16, f"{base + 16:x}")):
        yield line(authority, base + address, answer)


def stored_values(base):
    narrow, wide = around(base)
    data, both, local = STORE, STORE | STORE_CAPABILITY, STORE | STORE_CAPABILITY | STORE_LOCAL
    yield "# a store needs the permissions of what it stores; the one for local values is not one for capabilities"
    for stored, perms, cause in (
            ("untagged", data, None), ("global", data, STORES_CAPABILITY), ("global", both, None), ("local", data, STORES_CAPABILITY),
            ("local", both, STORES_LOCAL), ("local", local, None), ("global", STORE | STORE_LOCAL, STORES_CAPABILITY)):
        answer = f"{base:x}" if cause is None else cheri(A1, cause)
        yield f"storec {stored} {A1} {text(wide(perms))} {base:x} => {answer}"
    yield "# a load of a capability needs Load alone"
    yield f"loadc {A1} {text(wide(LOAD))} {base:x} => {base:x}"
    yield "# what is stored is told by the tag and Global"
    for value, stored in ((narrow(base), "global"), (narrow(base, ALL ^ GLOBAL), "local"),
                          (untagged(narrow(base)), "untagged"), (untagged(narrow(base, ALL ^ GLOBAL)), "untagged")):
        yield f"stored {text(value)} => {stored}"
    yield "# a capability lies at a multiple of 16"
    for name, mcause in (("loadc", 4), ("storec untagged", 6), ("storec local", 6), ("storec global", 6)):
        for offset in (1, 8, 12, 15):
            yield f"{name} {A0} {text(wide())} {base + offset:x} => {misaligned(mcause, base + offset)}"
        yield f"{name} {A0} {text(wide())} {base + 16:x} => {base + 16:x}"


def accesses():
    yield "# an access, the authority's register, the authority and an address => the address, or mcause and mtval"
    for base in (BASE, HIGH):
        if base == HIGH:
            yield "# the same with bounds above 2^63"
        for group in (word_accesses, sizes, ends, local_stores, stored_values):
            yield from group(base)
    ddc = capability(0x80000000, 0x80000000, 0x80000000)
    yield "# an access through DDC of no bytes has a fault of register 33"
    yield f"load 4 {DDC} {text(ddc)} 80000000 => {cheri(DDC, LENGTH)}"


def fetches(base):
    narrow, _ = around(base)
    yield "# a fetch: from each condition on all are false"
    weak_and_sealed = narrow(base + 16, ALL ^ EXECUTE, OWN_TYPE)
    for pcc, cause in (
            (untagged(weak_and_sealed), TAG), (weak_and_sealed, SEAL), (narrow(base + 16, ALL ^ EXECUTE), EXECUTES),
            (narrow(base + 16), LENGTH)):
        yield f"fetch {text(pcc)} => {cheri(PCC, cause)}"
    yield "# a fetch: one alone is false"
    for pcc, cause in (
            (untagged(narrow(base)), TAG), (narrow(base, ALL, OWN_TYPE), SEAL), (narrow(base, ALL, SENTRY), SEAL),
            (narrow(base, ALL ^ EXECUTE), EXECUTES), (narrow(base - 4), LENGTH)):
        yield f"fetch {text(pcc)} => {cheri(PCC, cause)}"
    yield "# a fetch with Execute alone, and one of whose bytes the last lies outside"
    for address in (base, base + 12):
        yield f"fetch {text(narrow(address, EXECUTE))} => {address:x}"
    yield f"fetch {text(capability(base, base + 15, base + 12))} => {cheri(PCC, LENGTH)}"


def targets(base):
    yield "# a target: inside, outside, misaligned too, and misaligned alone"
    pcc = capability(base, base + 8, base)
    for offset, answer in ((0, None), (4, None), (8, cheri(PCC, LENGTH)), (-4, cheri(PCC, LENGTH)), (6, cheri(PCC, LENGTH)),
                           (-2, cheri(PCC, LENGTH)), (2, misaligned(0, base + 2))):
        yield f"target {text(pcc)} {base + offset:x} => {answer or f'{base + offset:x}'}"
    yield "# a target is checked against the bounds alone"
    yield f"target {text(around(base)[0](base, ALL ^ EXECUTE))} {base + 12:x} => {base + 12:x}"


def register_jumps(base):
    narrow, _ = around(base)

    def line(c, offset, answer):
        return f"jump {A0} {text(c)} {offset:x} => {answer}"
    good, weak = narrow(base), narrow(base, ALL ^ EXECUTE)
    weak_and_sealed = narrow(base, ALL ^ EXECUTE, OWN_TYPE)
    yield "# a jump: from each condition on all are false"
    yield line(untagged(weak_and_sealed), 18, cheri(A0, TAG))
    yield line(weak_and_sealed, 18, cheri(A0, SEAL))
    yield line(weak, 18, cheri(A0, EXECUTES))
    yield line(good, 18, cheri(A0, LENGTH))
    yield line(good, 2, misaligned(0, base + 2))
    yield "# a jump: one alone is false, and none"
    yield line(untagged(good), 4, cheri(A0, TAG))
    yield line(narrow(base, ALL, OWN_TYPE), 4, cheri(A0, SEAL))
    yield line(weak, 4, cheri(A0, EXECUTES))
    yield line(good, 16, cheri(A0, LENGTH))
    yield line(good, 4, f"{base + 4:x}")
    yield line(narrow(base, EXECUTE), 12, f"{base + 12:x}")
    yield "# a sentry is entered at no offset alone, not even one whose bit 0 alone is set; what else is sealed is never"
    sentry, sealed = narrow(base, ALL, SENTRY), narrow(base, ALL, OWN_TYPE)
    yield line(sentry, 0, f"{base:x}")
    for c, offset in ((sentry, 4), (sentry, 1), (sealed, 0), (sealed, 4)):
        yield line(c, offset, cheri(A0, SEAL))


def far_jumps():
    yield "# a jump clears bit 0 and stays below the top"
    for address, offset, answer in (
            (0x80001001, 0, "80001000"), (0x80001000, 5, "80001004"), (0x80001001, 3, "80001004"),
            (0x80001002, 0, misaligned(0, 0x80001002)), (0x80001003, 0, misaligned(0, 0x80001002)),
            (0x80001004, SPACE - 4, "80001000"),
            # the last four bytes, two of them and two past the top, and round to the bottom
            (SPACE - 4, 0, "fffffffffffffffc"), (SPACE - 2, 0, cheri(A0, LENGTH)), (SPACE - 1, 0, cheri(A0, LENGTH)),
            (SPACE - 4, 8, "4")):
        yield f"jump {A0} {text(capability(0, SPACE, address))} {offset:x} => {answer}"
    yield "# where a jump goes"
    for address, offset, target in ((0, 0, 0), (3, 4, 6), (0x1000, SPACE - 4, 0xFFC), (SPACE - 1, 0, SPACE - 2), (SPACE - 1, 1, 0)):
        yield f"to {address:x} {offset:x} => {target:x}"


def jumps():
    yield "# a fetch, a target within PCC, or a jump by an offset => the address, or mcause and mtval"
    for base in (BASE, HIGH):
        if base == HIGH:
            yield "# the same with bounds above 2^63"
        for group in (fetches, targets, register_jumps):
            yield from group(base)
    yield from far_jumps()


def pairs(base):
    narrow, _ = around(base)

    def line(code, data, answer, registers=(A0, A1)):
        return f"{registers[0]} {text(code)} {registers[1]} {text(data)} => {answer}"
    far, no_code, no_data = base + 18, ALL ^ CINVOKE ^ EXECUTE, ALL ^ CINVOKE
    bare_code, bare_data = narrow(far, no_code, SENTRY), narrow(base, no_data)
    typed_code, typed_data = narrow(far, no_code, OWN_TYPE), narrow(base, no_data, OWN_TYPE)
    executable_data, other_data = narrow(base, ALL, OWN_TYPE), narrow(base, no_data, OTHER_TYPE)
    good_data = narrow(base, ALL ^ EXECUTE, OWN_TYPE)
    yield "# from each condition on all are false"
    for code, data, answer in (
            (untagged(bare_code), untagged(bare_data), cheri(A0, TAG)),
            (bare_code, untagged(bare_data), cheri(A1, TAG)),
            (bare_code, bare_data, cheri(A0, SEAL)),
            (typed_code, bare_data, cheri(A1, SEAL)),
            (typed_code, other_data, cheri(A0, TYPE)),
            (typed_code, typed_data, cheri(A0, INVOKES)),
            (narrow(far, ALL ^ EXECUTE, OWN_TYPE), typed_data, cheri(A1, INVOKES)),
            (narrow(far, ALL ^ EXECUTE, OWN_TYPE), executable_data, cheri(A0, EXECUTES)),
            (narrow(far, ALL, OWN_TYPE), executable_data, cheri(A1, EXECUTES)),
            (narrow(far, ALL, OWN_TYPE), good_data, cheri(A0, LENGTH)),
            (narrow(base + 2, ALL, OWN_TYPE), good_data, misaligned(0, base + 2))):
        yield line(code, data, answer)
    code, data = narrow(base, CINVOKE | EXECUTE, OWN_TYPE), narrow(base, CINVOKE, OWN_TYPE)
    yield "# each condition alone, both untagged, and none"
    for c, d, answer in (
            (untagged(code), data, cheri(A0, TAG)),
            (code, untagged(data), cheri(A1, TAG)),
            (code, narrow(base, CINVOKE, OTHER_TYPE), cheri(A0, TYPE)),
            (narrow(base, EXECUTE, OWN_TYPE), data, cheri(A0, INVOKES)),
            (code, narrow(base, 0, OWN_TYPE), cheri(A1, INVOKES)),
            (narrow(base, CINVOKE, OWN_TYPE), data, cheri(A0, EXECUTES)),
            (code, narrow(base, CINVOKE | EXECUTE, OWN_TYPE), cheri(A1, EXECUTES)),
            (narrow(base + 16, CINVOKE | EXECUTE, OWN_TYPE), data, cheri(A0, LENGTH)),
            (untagged(code), untagged(data), cheri(A0, TAG)),
            (code, data, f"{base:x}")):
        yield line(c, d, answer)
    yield "# the registers are those that are named"
    yield line(untagged(code), untagged(data), cheri(A1, TAG), (A1, A0))


def types(base):
    narrow, _ = around(base)
    yield "# a pair is sealed with one type of software's own"
    for code_type, data_type, answer in (
            (0, 0, f"{base:x}"), (0x3FFFB, 0x3FFFB, f"{base:x}"), (OWN_TYPE, OTHER_TYPE, cheri(A0, TYPE)),
            (0x3FFFC, 0x3FFFC, cheri(A0, SEAL)), (SENTRY, SENTRY, cheri(A0, SEAL)), (UNSEALED, UNSEALED, cheri(A0, SEAL)),
            (UNSEALED, OWN_TYPE, cheri(A0, SEAL)), (OWN_TYPE, 0x3FFFC, cheri(A1, SEAL)), (OWN_TYPE, SENTRY, cheri(A1, SEAL)),
            (OWN_TYPE, UNSEALED, cheri(A1, SEAL))):
        yield f"{A0} {text(narrow(base, ALL, code_type))} {A1} {text(narrow(base, ALL ^ EXECUTE, data_type))} => {answer}"


def invocations():
    yield "# a register with code and one with data => the target, or mcause and mtval"
    for base in (BASE, HIGH):
        if base == HIGH:
            yield "# the same with bounds above 2^63"
        for group in (pairs, types):
            yield from group(base)
    yield "# an invocation goes to the code's address with bit 0 cleared, wherever the data points"
    data = capability(BASE, TOP, BASE + 2, ALL ^ EXECUTE, 0, OWN_TYPE)
    for address, answer in ((0x80001001, "80001000"), (0x80001003, misaligned(0, 0x80001002)), (SPACE - 4, "fffffffffffffffc"),
                            (SPACE - 2, cheri(A0, LENGTH))):
        yield f"{A0} {text(capability(0, SPACE, address, ALL, 0, OWN_TYPE))} {A1} {text(data)} => {answer}"


def files():
    yield "accesses.txt", list(accesses())
    yield "jumps.txt", list(jumps())
    yield "invocations.txt", list(invocations())
