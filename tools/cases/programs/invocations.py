"""CInvoke of the pair in ca0 and ca1."""

from model.rights import CINVOKE, EXECUTE, LOAD

from .items import BOTH, Table, sealed, shaped

# What is entered, of types 5 and 6; a pair may have 16 bytes of it.
CODE, DATA = EXECUTE | CINVOKE, CINVOKE


def pair(code, code_type, data, data_type):
    """What makes a pair, of the arguments of what is shaped, and the types or, in place of one, the statements after it."""
    return [item for name, shape, otype in (("a0", code, code_type), ("a1", data, data_type))
            for item in (shaped(name, *shape), *([sealed(name, otype)] if isinstance(otype, int) else otype))]


# Types 5 and 6, a pair that is good, and each condition false from a place on, one place fewer a line. Bytes 2 to 6 are neither in 4
# bytes nor at a multiple of 4, and data that may be executed is forbidden.
TABLES = [Table("invocations", BOTH, [["cinvoke ca0, ca1"]], [
    (pair((CODE, 16, 4), 5, (LOAD | CINVOKE, 32, 9), 5), "trap; pcc; t6; a0; a1; ra"),
    (pair((CODE, 16, 0), 5, (DATA, 16, 0), 6), "trap; address mepcc"),
    pair((CODE, 16, 0), ["ccleartag ca0, ca0"], (DATA, 16, 0), ["ccleartag ca1, ca1"]),
    # from a place on
    pair((0, 4, 2), ["ccleartag ca0, ca0"], (EXECUTE, 16, 0), ["csealentry ca1, ca1", "ccleartag ca1, ca1"]),
    pair((0, 4, 2), [], (EXECUTE, 16, 0), ["csealentry ca1, ca1", "ccleartag ca1, ca1"]),
    pair((0, 4, 2), [], (EXECUTE, 16, 0), ["csealentry ca1, ca1"]),
    pair((0, 4, 2), 5, (EXECUTE, 16, 0), ["csealentry ca1, ca1"]),
    pair((0, 4, 2), 5, (EXECUTE, 16, 0), 6),
    pair((0, 4, 2), 5, (EXECUTE, 16, 0), 5),
    pair((CINVOKE, 4, 2), 5, (EXECUTE, 16, 0), 5),
    pair((CINVOKE, 4, 2), 5, (CODE, 16, 0), 5),
    pair((CODE, 4, 2), 5, (CODE, 16, 0), 5),
    pair((CODE, 4, 2), 5, (DATA, 16, 0), 5),
    pair((CODE, 16, 2), 5, (DATA, 16, 0), 5),
    # bit 0 is cleared
    (pair((CODE, 4, 1), 5, (DATA, 16, 0), 5), "trap; address pcc"),
])]
