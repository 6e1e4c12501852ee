"""Rows over capabilities on integers, which are data: what each gives, and that none of them traps. A pair is a register and the number
that is put into it."""

TABLES = {
    "what integers tell": [
        *(f"cget{name} a0, cnull" for name in ("base", "len", "type", "perm", "tag", "sealed", "flags")), ("a1", 0xfedc_ba98_7654_3210),
        "cgetbase a0, ca1", "cgetoffset a0, ca1", "cgetaddr a0, ca1", "cmove ca0, ca1", "ccleartag ca0, ca1",
    ],
    "lengths": [
        ("a0", 4095), "crrl a1, a0", "cram a1, a0", ("a0", 8191), "crrl a1, a0", "cram a1, a0", ("a0", 0x10_0001), "crrl a1, a0",
        "cram a1, a0", ("a0", 0xffff_ffff_ffff_ffff), "crrl a1, a0", "cram a1, a0",
    ],
    "sums": [
        ("a0", 0xffff_ffff_ffff_ffff), ("a1", 2), "cincoffset ca2, ca0, a1", "cincoffsetimm ca2, ca0, 1", "cincoffsetimm ca2, ca1, -2048",
        "csetoffset ca2, ca0, a1", "csetaddr ca2, ca1, a0", "csub a2, ca0, ca1", "csub a2, ca1, ca0",
    ],
    # register 0 as rs1 of CTestSubset is DDC, which has a tag
    "comparisons": [
        ("a0", 5), ("a1", 6), "csetequalexact a2, ca0, ca0", "csetequalexact a2, ca0, ca1", "csetequalexact a2, cnull, cnull",
        "ctestsubset a2, ca0, ca1", "ctestsubset a2, ca1, cnull", "ctestsubset a2, cnull, cnull", "ctestsubset a2, cnull, ca0",
    ],
    "derivations of integers": [
        ("a0", 0x8000_1000), ("a1", 4095), "csetbounds ca2, ca0, a1", "csetboundsexact ca2, ca0, a1", "csetboundsimm ca2, ca0, 4095",
        "cgetbase a3, ca2", "cgetlen a3, ca2",
        ("a0", 0x8000_1001), ("a1", 4096), "csetbounds ca2, ca0, a1", "csetboundsexact ca2, ca0, a1", "cgetbase a3, ca2", "cgetlen a3, ca2",
        ("a0", 1), ("a1", 8191), "csetbounds ca2, ca0, a1",
        "candperm ca2, ca1, a1", "csetflags ca2, ca1, a0", "cgetflags a3, ca2", "csetflags ca2, ca2, zero",
        "cseal ca2, ca1, ca0", "cgettype a3, ca2", "cgetsealed a3, ca2", "cunseal ca2, ca2, ca0", "csealentry ca2, ca1", "cgettype a3, ca2",
    ],
}
