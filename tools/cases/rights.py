"""Cases of permissions, types and seals, by the table of permissions and the rules of derivations."""

from cases.values import text
from model.capabilities import capability, untagged, with_fields
from model.rights import ALL, GREATEST_SEALING_TYPE, LOAD, SEAL, SENTRY, STORE, UNSEALED, USER1
from model.words import SPACE

# Global, Execute, Load, Store, Load_Capability, Store_Capability, Store_Local_Capability, Seal, CInvoke, Unseal,
# Access_System_Registers and Set_CID
PERMISSIONS = range(12)


def root(address):
    return capability(0, SPACE, address)


def page(perms, otype):
    """4095 bytes with these permissions and this type."""
    return capability(0x80001000, 0x80001FFF, 0x80001000, perms, 0, otype)


def authority(address, perms=ALL, otype=UNSEALED):
    """An authority over the types from 0 to 0xfff."""
    return capability(0, 0x1000, address, perms, 0, otype)


def of_type(otype):
    """8 KiB of RAM with an address inside, the flag and all permissions but Store."""
    return capability(0x80002000, 0x80004000, 0x80002104, 0xFFF7, 1, otype)


def permitted():
    yield "# each permission has a bit of its own, whatever the type and the tag"
    for bit in PERMISSIONS:
        for otype in (UNSEALED, SENTRY, 5):
            alone = capability(0, 16, 0, 1 << bit, 0, otype)
            others = capability(0, 16, 0, ALL ^ 1 << bit, 0, otype)
            for value, has in ((alone, 1), (others, 0), (untagged(alone), 1), (untagged(others), 0)):
                yield f"permits {text(value)} {bit} => {has}"
    yield "# user permissions are no hardware permissions"
    for bit in PERMISSIONS:
        yield f"permits {text(capability(0, 16, 0, 0xF000))} {bit} => 0"
    yield "# what is left of all permissions"
    yield f"permits {text(with_fields(root(0), perms=SEAL))} 7 => 1"
    yield f"permits {text(with_fields(root(0), perms=SEAL))} 0 => 0"


def opened():
    yield "# a sealed value opens to itself unsealed, and an unsealed one to itself"
    for otype in (SENTRY, 0x3FFFC, 0x3FFFB, 5, 0, UNSEALED):
        yield f"opened {text(of_type(otype))} => {text(of_type(UNSEALED))}"
    for otype in (UNSEALED, SENTRY):
        yield f"opened {text(untagged(of_type(otype)))} => {text(untagged(of_type(UNSEALED)))}"
    yield "# data opens to its bits with the type of what is not sealed, bits 27 to 44 of the high half"
    for before, after in ((0, 0x1FFFF8000000), (SPACE - 1, SPACE - 1), (0xFFFFE00007FFFFFF, SPACE - 1),
                          (0x1234C00000005678, 0x1234DFFFF8005678)):
        yield f"opened {text((before, 0x1234, False))} => {text((after, 0x1234, False))}"


def sealed():
    value, key = page(ALL, UNSEALED), authority(7)
    yield "# root seals with every type that is not reserved"
    yield f"seal {text(root(0))} {text(root(0x3FFFB))} => {text(with_fields(root(0), otype=0x3FFFB))}"
    yield f"seal {text(root(0))} {text(root(0x3FFFC))} => {text(with_fields(root(0), otype=0x3FFFC, tag=False))}"
    yield f"seal {text(value)} {text(key)} => {text(page(ALL, 7))}"
    yield "# each condition alone takes the tag"
    for what, c, by in (
            ("value without tag", untagged(value), key),
            ("authority without tag", value, untagged(key)),
            ("sealed value", page(ALL, 5), key),
            ("sealed authority", value, authority(7, ALL, 5)),
            ("no permission", value, authority(7, 0xFF7F)),
            ("address past the bounds", value, authority(0x1000)),
            ("reserved type", value, root(0x3FFFF)),
            ("address of more than 18 bits", value, root(0x40007))):
        yield f"# {what}"
        yield f"seal {text(c)} {text(by)} => {text(with_fields(c, otype=by[1] % 0x40000, tag=False))}"


def unsealed():
    value, key = page(ALL, 7), authority(7)
    yield "# what is sealed and unsealed is as it was, with Global only by an authority that has it"
    yield f"unseal {text(value)} {text(key)} => {text(page(ALL, UNSEALED))}"
    yield f"unseal {text(value)} {text(authority(7, 0xFFFE))} => {text(page(0xFFFE, UNSEALED))}"
    yield f"unseal {text(page(ALL, GREATEST_SEALING_TYPE))} {text(root(0x3FFFB))} => {text(page(ALL, UNSEALED))}"
    yield "# root does not unseal a sentry"
    sentry = with_fields(root(0x80000000), otype=SENTRY)
    yield f"unseal {text(sentry)} {text(root(0x3FFFE))} => {text(untagged(root(0x80000000)))}"
    yield "# each condition alone takes the tag"
    for what, c, by in (
            ("value without tag", untagged(value), key),
            ("authority without tag", value, untagged(key)),
            ("reserved type", page(ALL, SENTRY), root(0x3FFFE)),
            ("sealed authority", value, authority(7, ALL, 5)),
            ("no permission", value, authority(7, 0xFDFF)),
            ("address past the bounds", page(ALL, 0x1000), authority(0x1000)),
            ("address of another type", value, authority(8))):
        yield f"# {what}"
        yield f"unseal {text(c)} {text(by)} => {text(with_fields(c, otype=UNSEALED, tag=False))}"


def entries():
    code = page(ALL, UNSEALED)
    yield "# an entry is sealed from executable capabilities"
    yield f"entry {text(code)} => {text(page(ALL, SENTRY))}"
    yield f"entry {text(root(0x80000000))} => {text(with_fields(root(0x80000000), otype=SENTRY))}"
    yield f"opened {text(page(ALL, SENTRY))} => {text(code)}"
    for c in (page(0xFFFD, UNSEALED), page(ALL, 5), untagged(code)):
        yield f"entry {text(c)} => {text(with_fields(c, otype=SENTRY, tag=False))}"


def changed():
    yield "# a sealed value keeps no tag when it is changed"
    for c, tag in ((page(0x1FFF, UNSEALED), True), (page(0x1FFF, 5), False)):
        yield f"perms {text(c)} {LOAD | STORE | USER1:x} => {text(with_fields(c, perms=0xC, tag=tag))}"
        marked = with_fields(c, flag=1, tag=tag)
        yield f"flags {text(c)} 1 => {text(marked)}"
        yield f"flags {text(marked)} 0 => {text(with_fields(marked, flag=0))}"
    yield "# changed data keeps its reserved bits"
    yield f"perms {text((SPACE - 1, SPACE - 1, False))} 0 => {text((2**48 - 1, SPACE - 1, False))}"


def compared():
    value = page(ALL, UNSEALED)
    fewer = page(LOAD, UNSEALED)
    yield "# a value and an outer one: a subset has the same tag and lies within"
    for c, outer, holds in ((value, root(0), 1), (value, value, 1), (fewer, value, 1), (root(0), value, 0), (value, fewer, 0),
                            (untagged(value), root(0), 0)):
        yield f"subset {text(c)} {text(outer)} => {holds}"
    for a, b, holds in ((value, untagged(value), 0), (value, fewer, 0), (value, value, 1)):
        yield f"equal {text(a)} {text(b)} => {holds}"


NUMBERS = """\
# permissions are shown with the user ones from bit 15 on
shown ffff => 78fff
named 78fff => ffff
named fffffffffff87000 => 0
named 8000 => 1000
# a set of one permission, by its bit
set 0 => 1
set 1 => 2
set 2 => 4
set 3 => 8
set 4 => 10
set 5 => 20
set 6 => 40
set 7 => 80
set 8 => 100
set 9 => 200
set 10 => 400
set 11 => 800
# sets by their permissions' names
names LOAD+STORE+USER1 => 200c
names SET_CID => 800
names SEAL => 80
names USER0 => 1000
# a type has 18 bits, and the four greatest are reserved
type 40000 => none
type 0 => 0 0
type 3fffb => 0 3fffb
type 3fffc => 1 fffffffffffffffc
type 3fffe => 1 fffffffffffffffe
type 3ffff => 1 ffffffffffffffff
# the granule of a length
granule fff => 1
granule 1000 => 8
granule 1ff8 => 8
granule 1fff => 10
# base, top, address, permissions, flag and type => whether they are a capability: from 4096 bytes on bounds are multiples of 8
record 0 1000 0 ffff 0 3ffff => 1
record 0 1001 0 ffff 0 3ffff => 0""".splitlines()


def lines():
    yield "# a question, a value, and a permission's bit, a set of permissions, a flag or another value => a truth value or a value"
    for group in (permitted, opened, sealed, unsealed, entries, changed, compared):
        yield from group()
    yield from NUMBERS


def files():
    yield "rights.txt", list(lines())
