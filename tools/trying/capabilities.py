"""Words, windows, requests and rights: the calls of libcheri-caps."""
from ctypes import byref, c_bool, c_uint8

from model.bounds import bounded as bounded_by_formulas
from model.rights import CINVOKE, GREATEST_SEALING_TYPE, SENTRY, UNSEALED
from model.words import NULL_HIGH, ONES, SPACE, decoded, fields, is_well_formed

from .libraries import Cap, Fields
from .machines import MEPCC, PCC
from .reading import Left, Words, cap_text, number
from .rows import BY_NAME, encoded

WINDOW_GOES_ROUND = 50


def word(bench, case):
    """Sixteen bytes in memory and a tag: the value, what its word says, the fields IE, T and B as they stand in it, base and top."""
    library, words = bench.library, Words(bench.library, case.inputs)
    memory, back = (c_uint8 * 16).from_buffer_copy(bytes.fromhex(words.word())), (c_uint8 * 16)()
    found = library.cheri_from_memory(memory)
    library.cheri_to_memory(found, back)
    if bytes(back) != bytes(memory):
        return f"back in memory {bytes(back).hex()}"
    fields = Fields()
    library.cheri_decompress(found, byref(fields))
    base, top, address = library.cheri_base(found), int(library.cheri_top(found)), found.address
    perms, flag, otype = library.cheri_perms(found), library.cheri_flag(found), library.cheri_otype(found)
    if (fields.base, fields.top(), fields.address, fields.perms, fields.flag, fields.otype) != (base, top, address, perms, flag, otype):
        return "cheri_decompress says another word"
    upper, well_formed = found.upper, library.cheri_is_well_formed(found)
    return (f"{cap_text(library.cheri_cap(found, words.bit()))} {well_formed:d} {perms:x} {flag:d} {otype:x} "
            f"{upper >> 26 & 1} {upper >> 14 & 0xFFF:x} {upper & 0x3FFF:x} {base:x} {top:x}")


def parts(bench, case):
    """A word, and the parts of its decoding in the answer: they are right where base, top and the window's ends that follow from them
    are the word's."""
    library, found = bench.library, Words(bench.library, case.inputs).cap_word()
    e, *mantissas, edge, base_step, top_step, flip = case.expected.split()
    b, t = (int(mantissa, 16) for mantissa in mantissas)
    e, edge, base_step, top_step, flip = map(int, (e, edge, base_step, top_step, flip))
    high = found.address >> e + 14
    base = ((high + base_step << e + 14) + (b << e)) % SPACE
    top = ((high + top_step << e + 14) + (t << e)) % (2 * SPACE) ^ flip << 64
    came = library.cheri_base(found), int(library.cheri_top(found))
    if came != (base, top):
        return f"base and top {came[0]:x} {came[1]:x}, not {base:x} {top:x}"
    eighths = found.address >> e + 11
    start = eighths - (eighths - edge) % 8 << e + 11
    ends = (start, True), (start + (1 << e + 14) - 1, True), (start - 1, False), (start + (1 << e + 14), False)
    for address, stays in ends if e < WINDOW_GOES_ROUND else ((address, True) for address, _ in ends):
        if library.cheri_is_representable(found, address & ONES) != stays:
            return f"the window's end {address & ONES:x} is another"
    return case.expected


def window(bench, case):
    """A value and an address: whether its bounds stay with it, and the value with it, its base and its top."""
    library, words = bench.library, Words(bench.library, case.inputs)
    value, address = words.value(), words.hex()
    moved = library.cheri_set_address(value, address)
    base, top = library.cheri_base(moved.word()), int(library.cheri_top(moved.word()))
    return f"{library.cheri_is_representable(value.word(), address):d} {cap_text(moved)} {base:x} {top:x}"


def request(bench, case):
    """A value and a length: the value with the bounds of so many bytes, whether they are exact, and its fields."""
    library, words = bench.library, Words(bench.library, case.inputs)
    value, length, exact = words.value(), words.hex(), c_bool()
    bounded = library.cheri_set_bounds(value, length, byref(exact))
    found = bounded.word()
    if library.cheri_is_exact(value.address, length) != (exact.value and value.address + length <= SPACE):
        return "cheri_is_exact says otherwise"
    fields = f"{library.cheri_perms(found):x} {library.cheri_flag(found):d} {library.cheri_otype(found):x}"
    return f"{cap_text(bounded)} {exact.value:d} {fields} {library.cheri_base(found):x} {int(library.cheri_top(found)):x}"


class Modelled:
    """The library beside the standard's formulas in tools/model/: which calls differ over one value."""

    def __init__(self, library, value):
        self.library, self.value = library, value
        self.bounds = decoded(value.upper, value.address)

    def is_same(self, value, upper, address, tag):
        """Whether a value is this one by the formulas."""
        found = value.word()
        bounds = self.library.cheri_base(found), int(self.library.cheri_top(found))
        return value.key() == (upper, address, tag) and bounds == decoded(upper, address)

    def moves(self, address):
        """Whether it moves to an address as the formulas say."""
        value = self.value
        stays = decoded(value.upper, address) == self.bounds
        tag = value.tag and stays and fields(value.upper)[2] == UNSEALED
        return (self.library.cheri_is_representable(value.word(), address) == stays
                and self.is_same(self.library.cheri_set_address(value, address), value.upper, address, tag))

    def takes(self, length):
        """Whether it takes the bounds of so many bytes as the formulas say."""
        value, exact = self.value, c_bool()
        bounded = self.library.cheri_set_bounds(value, length, byref(exact))
        upper, tag, is_exact, *_ = bounded_by_formulas(value.upper, value.address, value.tag, length)
        has_bounds = self.library.cheri_is_exact(value.address, length)
        return (exact.value == is_exact and has_bounds == (is_exact and value.address + length <= SPACE)
                and self.is_same(bounded, upper, value.address, tag))


def agreement(bench, case):
    """A word, a length and an exponent: 1 where the library agrees with the formulas, at the ends of the window and of the bounds, and
    over that length and those at which rounding changes at the exponent."""
    library, words = bench.library, Words(bench.library, case.inputs)
    found, length, granule = words.cap_word(), words.hex(), 8 << min(words.decimal(), 50)
    well_formed = is_well_formed(found.upper, found.address)
    if library.cheri_is_well_formed(found) != well_formed:
        return "0: whether it is well-formed"
    model = Modelled(library, library.cheri_cap(found, True))
    if not model.is_same(model.value, found.upper, found.address, well_formed):
        return "0: what the word says"
    base, top = model.bounds
    step = 1 << min(field_exponent(found.upper), 49) + 11
    start = base // step * step - step
    for end in (start, start + 8 * step, base, top):
        for address in (end & ONES, end - 1 & ONES):
            if not model.moves(address):
                return f"0: address {address:x}"
    most = 1023 * granule
    around = (most, most - granule, most + granule, 512 * granule)
    for asked in (length, *(one + more & ONES for one in around for more in (0, -1, 1))):
        if not model.takes(asked):
            return f"0: length {asked:x}"
    return "1"


def field_exponent(upper):
    """E by a word's fields."""
    return (upper >> 14 & 7) << 3 | upper & 7 if upper >> 26 & 1 else 0


# ---- rights

def executed(bench, name, cs1, cs2=None, rs1=11, ddc=None, imm=0):
    """The value of a row over capabilities."""
    library, value = bench.library, Cap()
    null = Cap(0, NULL_HIGH, False)
    found = encoded(library, name, 10, rs1, 12 if BY_NAME[name].format == "Register" else 0, imm)
    if not library.cheri_execute(found, cs1, cs2 or null, ddc or null, byref(value)):
        raise ValueError(f"{name} is not executed")
    return value


def in_software(perms):
    """A set of permissions as CAndPerm and CGetPerm have it: the user ones from bit 15 on."""
    return perms & 0xFFF | perms >> 12 << 15


def with_type(bench, otype):
    """Data with an object type."""
    return Cap(0, NULL_HIGH & ~(0x3FFFF << 27) | otype << 27, False)


def opened(bench, value):
    """A value unsealed: data as CUnseal leaves it, and a capability as a return or an invocation leaves it in PCC, which open no reserved
    type but a sentry."""
    if not value.tag:
        return cap_text(executed(bench, "cunseal", value, bench.root(0)))
    otype = bench.library.cheri_otype(value.word())
    if GREATEST_SEALING_TYPE < otype < SENTRY:
        raise Left
    machine = bench.root_machine()
    if otype >= SENTRY:
        machine.set_scr(MEPCC, value)
        bench.place(machine, "mret")
    else:
        data = Cap(0, NULL_HIGH & ~(0x3FFFF << 27) | CINVOKE << 48 | otype << 27, False)
        machine.set_reg(11, value)
        machine.set_reg(12, bench.library.cheri_cap(data.word(), True))
        bench.place(machine, "cinvoke", rs1=11, rs2=12)
    machine.step()
    return cap_text(machine.scr(PCC))


def about_number(bench, what, words):
    """A question about no value."""
    library = bench.library
    if what == "granule":
        return f"{-library.cheri_alignment_mask(words.hex()) & ONES:x}"
    if what == "shown":
        return f"{executed(bench, 'cgetperm', Cap(0, words.hex() << 48, False)).address:x}"
    if what == "named":
        return f"{library.cheri_perms(executed(bench, 'candperm', bench.root(0), number(words.hex())).word()):x}"
    if what == "record":
        base, top, address, perms, flag, otype = words.hex(), words.hex(), words.hex(), words.hex(), words.bit(), words.hex()
        fields = Fields(base, top & ONES, top >> 64, address, otype, perms, flag)
        return f"{library.cheri_compress(byref(fields), byref(Cap())):d}"
    otype = words.hex() if what == "type" else SPACE
    if otype > UNSEALED:
        raise Left
    reserved = not executed(bench, "cseal", bench.root(0), bench.root(otype)).tag
    return f"{reserved:d} {executed(bench, 'cgettype', with_type(bench, otype)).address:x}"


def of_two(bench, what, value, other):
    """A question about a value and another one."""
    if what == "subset":
        return f"{executed(bench, 'ctestsubset', other, value).address:x}"
    if what == "equal":
        return f"{executed(bench, 'csetequalexact', value, other).address:x}"
    return cap_text(executed(bench, {"seal": "cseal", "unseal": "cunseal"}[what], value, other))


def right(bench, case):
    """A question about a value, and a permission's bit, a set of permissions, a flag or another value after it; or about a number."""
    words = Words(bench.library, case.inputs)
    what = words.word()
    if what in ("type", "set", "shown", "named", "names", "granule", "record"):
        return about_number(bench, what, words)
    value = words.value()
    if what == "permits":
        return f"{bench.library.cheri_perms(value.word()) >> words.decimal() & 1}"
    if what == "opened":
        return opened(bench, value)
    if what == "entry":
        return cap_text(executed(bench, "csealentry", value))
    if what == "perms":
        return cap_text(executed(bench, "candperm", value, number(in_software(words.hex()))))
    if what == "flags":
        return cap_text(executed(bench, "csetflags", value, number(words.bit())))
    return of_two(bench, what, value, words.value())


def capability_row(bench, case):
    """A mnemonic, the value in rs1, and that in rs2 or the immediate; then rs1's number and DDC, or nothing for 11 and null."""
    words = Words(bench.library, case.inputs)
    name, cs1 = words.word(), words.value()
    imm, cs2 = (0, words.value()) if BY_NAME[name].format in ("Register", "Unary") else (words.hex(), None)
    rs1, ddc = (words.decimal(), words.value()) if words.more() else (11, None)
    return cap_text(executed(bench, name, cs1, cs2, rs1, ddc, imm))
