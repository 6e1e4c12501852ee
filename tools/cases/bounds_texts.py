"""Cases of the texts that say what setting bounds gives, what an allocator asks of a length, and what the word of a capability means:
requests, lengths and words, the worked ones first, and their whole texts.

The bounds and the word come from tools/model/bounds.py, and the window from tools/model/words.py: the standard's formulas, and the
addresses that its decoding keeps the bounds with, one block after the other. The picture is drawn by looking at each column's addresses.
"""

from cases.quoting import quoted
from cases.sequences import Numbers
from cases.words import distinct_words
from model.bounds import alignment_mask, bounded, by_the_least_exponent
from model.rights import ALL, GREATEST_SEALING_TYPE, SENTRY, UNSEALED, letters
from model.words import NULL_HIGH, ONES, ROOT_HIGH, SPACE, canonical, decoded, exponent_and_mantissas, fields, is_well_formed, kept

# base, length and address of the requests whose numbers are worked out by hand
WORKED = [
    (0x80001000, 0xFFF, 0x80001FFE),
    (0x80001000, 0xFFF, 0x80001FFF),
    (0x80001000, 0xFFF, 0x800047FF),
    (0x80001000, 0xFFF, 0x80004800),
    (0x80001000, 0xFFF, 0x80000800),
    (0x80001000, 0xFFF, 0x800007FF),
    (0x80001001, 0x1000, None),
    (1, 0x1FFF, None),
    (0, 16, ONES),
    (0, 16, SPACE - 0x801),
    (0x80001FFF, 0, 0x80001FFF),
    (0, ONES, 5),
    (1, ONES, ONES),
    (ONES, 1, ONES),
    (ONES, 2, 0),
    (ONES, ONES, None),
]


# lengths at which the granule grows, and the greatest
LENGTHS = [0, 1, 0xFFF, 0x1000, 0x1001, 0x1FF8, 0x1FF9, 0x2000, 0x2001, 1 << 20, (1 << 20) + 1, 1 << 63, (1 << 63) + 1, ONES - (1 << 55),
           ONES - (1 << 55) + 1, ONES - (1 << 55) + 2, ONES]


def marks(base, low, up, end, first, size):
    """A column by looking at what of the bounds it has."""
    width = size // 64
    inside = []
    for column in range(64):
        start = (first + column * width) % SPACE
        has = low < start + width and start < up
        at_base = low == up and start <= low < start + width
        inside.append(has or at_base)
    columns = [i for i, is_in in enumerate(inside) if is_in]
    line = ["=" if is_in else "-" for is_in in inside]
    if len(columns) == 1:
        line[columns[0]] = "|"
    else:
        line[columns[0]] = "<" if low < base else "["
        line[columns[-1]] = ">" if end < up else "]"
    return "".join(line)


def text(base, length, address):
    """The whole text of a request."""
    end = base + length
    high, tag, exact, low, top = bounded(ROOT_HIGH, base, 1, length)[:5]
    (_, (_, up)) = by_the_least_exponent(base, end)
    found = by_the_least_exponent(base, end)[0]
    granule = 2 ** (found[0] + 3) if found[1] else 1
    raised = -(-end // granule) * granule
    mask = alignment_mask(length)
    yield f"request  {base:016x} {end:017x} length {length}"
    yield "tag      1" if tag else "tag      0, as the request ends past 2^64"
    yield "exact    yes" if exact else "exact    no"
    yield f"bounds   {low:016x} {top:017x}"
    yield f"added    {base - low} below, {raised - end} above"
    yield f"granule  {granule}"
    yield f"crrl     {length + ONES - mask & mask:016x}"
    yield f"cram     {mask:016x}"
    yield f"word     {base:016x} {high ^ NULL_HIGH:016x}"
    if not tag:
        return
    first, last = kept(high, base)
    size = (last - first) % SPACE + 1
    yield f"window   {first:016x} {last:016x}"
    if address is not None:
        where = "in bounds" if low <= address < top else "in the window" if (address - first) % SPACE < size else "outside"
        yield f"address  {address:016x} {where}"
    yield f"column   {size // 64} bytes"
    yield f"picture  {marks(base, low, top, end, first, size)}"


def length_text(length):
    """What an allocator asks of a length."""
    mask = alignment_mask(length)
    granule = SPACE - mask
    rounded = -(-length // granule) * granule
    # from 0, and from the last multiple from which the block ends in the address space
    for base in (0, (SPACE - rounded) // granule * granule):
        assert by_the_least_exponent(base, base + length)[1] == (base, base + rounded)
    # at a lesser granule the length has no exact bounds
    assert length < 4096 or by_the_least_exponent(granule // 2, granule // 2 + length)[1] != (granule // 2, granule // 2 + rounded)
    yield f"asked    length {length}"
    yield f"rounded  length {rounded}"
    yield f"align    {granule}, mask {mask:016x}"
    yield f"padding  {rounded - length}"
    yield f"bounds   {0:016x} {rounded:017x}, and so from each multiple of {granule}"


def lengths():
    """Lengths of every size."""
    numbers = Numbers(0x4C454E47)
    for bits in range(12, 64):
        yield (1 << bits) + numbers.below(1 << bits)


def window(high, address):
    """The window of a word's bounds, by its base; of a well-formed word the addresses that its decoding keeps the bounds with."""
    e, base = exponent_and_mantissas(high)[0], decoded(high, address)[0]
    step = 1 << e + 11
    first = (base // step - 1) * step
    ends = (0, ONES) if e >= 50 else (first % SPACE, (first + 8 * step - 1) % SPACE)
    assert not is_well_formed(high, address) or ends == kept(high, address)
    return ends


def type_words(otype):
    if otype > GREATEST_SEALING_TYPE:
        return {UNSEALED: "unsealed", SENTRY: "sentry"}.get(otype, "sealed, reserved")
    return "sealed"


def word_text(high, address):
    """What a word means."""
    base, top = decoded(high, address)
    perms, flag, otype = fields(high)
    first, last = window(high, address)
    yield f"logical  {high:016x} {address:016x}"
    yield f"memory   {high ^ NULL_HIGH:016x} {address:016x}"
    yield "tag      0 or 1" if is_well_formed(high, address) else "tag      0, as the word is malformed"
    yield f"address  {address:016x}"
    yield f"bounds   {base:016x} {top:017x}"
    yield f"length   {(top - base) % (2 * SPACE)}"
    yield f"perms    {perms >> 12 << 15 | perms & 0xFFF:05x} {letters(perms)}"
    yield f"otype    {otype:05x} {type_words(otype)}"
    yield f"flag     {flag}"
    yield f"encoding IE {high >> 26 & 1} T {high >> 14 & 0xFFF:03x} B {high & 0x3FFF:04x}, exponent {exponent_and_mantissas(high)[0]}"
    yield f"window   {first:016x} {last:016x}"


def shaped():
    """Words of each kind of type, without and with permissions, with the reserved bits set, and of bounds that no word has."""
    for otype in (0, 18, GREATEST_SEALING_TYPE, GREATEST_SEALING_TYPE + 1, SENTRY - 1, SENTRY, UNSEALED):
        yield canonical(0x80001000, 0x80002000, ALL, 0, otype & 1, otype), 0x80001008
    for bit in range(16):
        yield canonical(0x80000000, 0x80000010, 1 << bit, 0, 0, UNSEALED), 0x80000000
    yield canonical(0x80000000, 0x80000010, 0, 3, 1, UNSEALED), 0x80000000
    # T below B without an exponent: the top is the next block's
    yield 0x00001FFFF8003FFF, 0
    yield 0x1FFFF8003FFF, ONES
    # exponents past 52, which are read as 52
    yield from ((ROOT_HIGH & ~0x1C007 | field >> 3 << 14 | field & 7, 0) for field in (51, 52, 53, 63))


def word_cases():
    yield "# the halves of a word, in logical form or as they stand in memory => the text that says what it means"
    found = list(dict.fromkeys([*shaped(), *distinct_words()[::4]]))
    for number, (high, address) in enumerate(found):
        whole = quoted("".join(line + "\n" for line in word_text(high, address)))
        if number % 3:
            yield f"{high:x} {address:x} logical => {whole}"
        else:
            yield f"{high ^ NULL_HIGH:x} {address:x} memory => {whole}"


def length_cases():
    yield "# a length => the text that says what an allocator asks of it"
    for length in [*LENGTHS, *lengths()]:
        yield f"{length:x} => {quoted(''.join(line + chr(10) for line in length_text(length)))}"


def drawn():
    """Requests of every length, with addresses at the ends of their windows."""
    numbers = Numbers(0x424F554E)
    for bits in range(65):
        length = min((1 << bits) - 1 + numbers.below(3), ONES) if bits % 2 else numbers.below(1 << bits)
        base = numbers.below(SPACE - length) if bits < 64 else numbers.below(2)
        address = numbers.choice([None, base, numbers.below(SPACE), (base + length) % SPACE])
        yield base, length, address


def files():
    lines = ["# base, length, and an address or `-` => the text that says what setting these bounds gives"]
    for base, length, address in WORKED + list(drawn()):
        shown = "-" if address is None else f"{address:x}"
        whole = "".join(line + "\n" for line in text(base, length, address))
        lines.append(f"{base:x} {length:x} {shown} => {quoted(whole)}")
    yield "bounds.txt", lines
    yield "lengths.txt", list(length_cases())
    yield "word_texts.txt", list(word_cases())
