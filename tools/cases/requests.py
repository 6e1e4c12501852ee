"""Cases of requests for bounds, and what setting the bounds is to give, by the model's formula (tools/model/bounds.py)."""

from cases.sequences import Drawn, Numbers
from model.bounds import KEPT_FIELDS, bounded, high_around
from model.rights import ALL, SENTRY, UNSEALED
from model.words import NULL_HIGH, ONES, ROOT_HIGH, SPACE, decoded, is_well_formed, kept


def shape(numbers, otype=UNSEALED):
    """Any permissions and flag, as they stand in a high half with this object type."""
    return numbers.choice([ALL, numbers.below(1 << 16)]) << 48 | numbers.below(2) << 45 | otype << 27


def root_or_narrower(numbers, base, top):
    """The high half of a capability that holds this range, below the end of the address space; root two times in three."""
    top = min(top, SPACE)
    if numbers.below(3):
        return ROOT_HIGH
    spare = (top - base) // 2 ** numbers.below(11) + 1
    low, up = numbers.below(spare), numbers.below(spare)
    return high_around(shape(numbers), max(base - low, 0), min(top + up, SPACE))


def worked():
    yield ROOT_HIGH, 0x80001000, True, 4095
    yield ROOT_HIGH, 0x80001001, True, 4096
    yield ROOT_HIGH, 1, True, 8191
    yield ROOT_HIGH, ONES, True, ONES


def short(numbers):
    """Lengths at the least exponents, from bases on and off granules of 8 and 16 bytes."""
    for length in (0, 1, 4095, 4096, 4097, 8184, 8185, 8191):
        for offset in (0, 8, 1 + numbers.below(7)):
            address = (numbers.below(SPACE - 2**20) & ~15) + offset
            yield root_or_narrower(numbers, address, address + length), address, True, length


def powers(numbers):
    """Lengths round powers of two, from any base or from one on a granule."""
    for k in range(12, 65):
        for length in (2**k - 1, 2**k, 2**k + 1):
            if length >= SPACE:
                continue
            granule = 2 ** max(k - 9, 3)
            address = numbers.below(SPACE - length + 1)
            address -= numbers.choice([0, address % granule])
            yield root_or_narrower(numbers, address, address + length), address, True, length


def limits(numbers):
    """The longest requests of 1023 granules, or a byte less, and the requests a byte longer, which carry."""
    for k in range(13, 65):
        granule = 2 ** (k - 10)
        offset = numbers.choice([0, 0, 1, granule - 1, numbers.below(granule)])
        address = numbers.below(max(SPACE // granule - 1024, 1)) * granule + offset
        longest = 1023 * granule - offset
        for length in (longest - k // 2 % 2, longest + 1):
            yield root_or_narrower(numbers, address, address + length), address, True, length


def at_the_end(numbers):
    """Requests up to the end of the address space, and past it."""
    for length in (1, 4095, 4096):
        address = SPACE - length
        for more in (0, 1):
            yield root_or_narrower(numbers, address, SPACE), address, True, length + more
    for e in (1, 13, 25, 37, 49):
        granule = 2 ** (e + 3)
        length = (512 + numbers.below(510)) * granule
        address = SPACE - length
        for more in (0, 1, granule):
            yield root_or_narrower(numbers, address, SPACE), address, True, length + more
    for length in (0xFFF, 0x1000, 0x1001, 0x1008, 0x2000):
        yield ROOT_HIGH, SPACE - 0x1000, True, length
    for address in (0, 1, SPACE // 2, SPACE // 2 + 1, ONES):
        yield ROOT_HIGH, address, True, ONES
        yield ROOT_HIGH, address, True, SPACE // 2


def at_the_bounds(numbers):
    """Requests of all of a capability, of a byte less and of a byte too many, and of nothing at its ends."""
    for e in (None, 0, 1, 13, 30, 47):
        unit = 1 if e is None else 2 ** (e + 3)
        length = 1 + numbers.below(4094) if e is None else (512 + numbers.below(510)) * unit
        base = (1 + numbers.below(SPACE // unit - 1024)) * unit
        top = base + length
        high = high_around(shape(numbers), base, top)
        assert decoded(high, base) == (base, top)
        yield high, base, True, length
        yield high, base + 1, True, length - 1
        yield high, base, True, length + 1
        yield high, base - 1, True, length + 1
        yield high, top, True, 0
        yield high, top, True, 1
        yield high, kept(high, base)[1], True, 0


def sealed(numbers):
    """Requests that a sealed capability's bounds hold."""
    for otype in (SENTRY, 5, 0, UNSEALED >> 1):
        for length in (16, 4096 + numbers.below(1 << 40)):
            address = numbers.below(SPACE // 2)
            yield ROOT_HIGH & ~KEPT_FIELDS | shape(numbers, otype), address, True, length
            yield high_around(shape(numbers, otype), address, address + length), address, True, length


def untagged(numbers):
    """Requests of data: words of capabilities, null, words with reserved bits, and malformed ones."""
    malformed = [
        # an exponent field above 52, and bounds that go past the end of the address space
        (0x00001FFFF8003FFF ^ NULL_HIGH, 0),
        (ONES, ONES),
        (high_around(shape(numbers), SPACE - 2**20, SPACE + 2**20), ONES),
    ]
    for high, address in malformed:
        assert not is_well_formed(high, address)
    reserved = [(ROOT_HIGH | bits << 46, numbers.below(SPACE // 2)) for bits in (1, 2, 3)]
    address = numbers.below(SPACE // 2)
    well_formed = [
        (NULL_HIGH, 0),
        (NULL_HIGH, ONES),
        (ROOT_HIGH, address),
        (high_around(shape(numbers), address, address + 2**33), address),
        (high_around(shape(numbers, SENTRY), address, address + 2**33), address),
    ]
    for high, address in malformed + reserved + well_formed:
        for length in (numbers.below(4096), 4096 + numbers.below(2 ** (13 + numbers.below(51)))):
            yield high, address, False, length


def requests():
    numbers = Numbers(0x424E4453)
    yield from worked()
    for group in (short, powers, limits, at_the_end, at_the_bounds, sealed, untagged):
        yield from group(numbers)


def lines():
    yield "# a value, and a length => the value with these bounds, whether rounding changed nothing, perms, flag, otype, base, top"
    # in their order, each once
    for high, address, tag, length in dict.fromkeys(requests()):
        result, result_tag, exact, base, top = bounded(high, address, tag, length)
        fields = f"{high >> 48:x} {high >> 45 & 1} {high >> 27 & 0x3FFFF:x}"
        yield (f"{high:016x} {address:x} {int(tag)} {length:x} => "
               f"{result:016x} {address:x} {int(result_tag)} {int(exact)} {fields} {base:x} {top:x}")


def drawn_words():
    """Words with a length and an exponent: by turns a capability at another address, one with other bits above, and any word."""
    numbers = Drawn(0x2545F4914F6CDD1D)
    for turn in range(3000):
        address = numbers.next()
        high = high_around(ROOT_HIGH, address, address + numbers.any_length())
        address ^= numbers.any_length()
        noise = numbers.any_length()
        if turn % 3 == 1:
            high ^= noise
        elif turn % 3 == 2:
            high, address = numbers.next(), numbers.next()
        yield high, address, numbers.any_length(), turn % 51


def agreement_lines():
    yield ("# a drawn word's high half and its address, a length and an exponent => 1, where every form agrees with the record in each "
           "field,")
    yield "# with the addresses at its ends, with bounds of that length and at the limits of that exponent, and without its tag"
    yield from (f"{high:016x} {address:x} {length:x} {e} => 1" for high, address, length, e in drawn_words())


def files():
    yield "requests.txt", list(lines())
    yield "agreements.txt", list(agreement_lines())
