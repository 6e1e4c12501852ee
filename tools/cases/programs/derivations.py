"""Rows over capabilities that are derived from root: what each gives, with the tag, and that none of them traps. A pair is a register and
the number that is put into it."""

# Register 20 is root at 0, as DDC is opened; 22 is the page [0x8000_1000, 0x8000_1fff), where that is said.
ROOT = "cspecialrw cs4, ddc, cnull"
AT_PAGE = [("a0", 0x8000_1000), "csetaddr cs5, cs4, a0"]

TABLES = {
    "lengths of 4095, 4096 and 8191": [
        ROOT, "cgetperm a3, cs4", *AT_PAGE, ("a1", 4095), "csetbounds cs6, cs5, a1", "csetboundsexact cs7, cs5, a1",
        "csetboundsimm cs7, cs5, 4095", "cgetbase a3, cs6", "cgetlen a3, cs6",
        "cincoffsetimm cs5, cs5, 1", ("a1", 4096), "csetbounds cs6, cs5, a1", "csetboundsexact cs7, cs5, a1", "cgetbase a3, cs6",
        "cgetlen a3, cs6", "cgetoffset a3, cs6",
        ("a0", 1), "csetoffset cs5, cs4, a0", ("a1", 8191), "csetbounds cs6, cs5, a1", "cgetbase a3, cs6", "cgetlen a3, cs6",
    ],
    # at the page's top, and at the end of the address space
    "empty and too long requests": [
        ROOT, *AT_PAGE, ("a1", 4095), "csetbounds cs6, cs5, a1", ("a0", 0x8000_1fff), "csetaddr cs6, cs6, a0", "csetbounds cs7, cs6, zero",
        "cgetlen a3, cs7", "csetboundsimm cs7, cs6, 1", "cgetbase a3, cs7", "cgetlen a3, cs7",
        ("a0", 0xffff_ffff_ffff_ffff), "csetaddr cs5, cs4, a0", "csetbounds cs6, cs5, a0", "cgetbase a3, cs6", "cgetlen a3, cs6",
        "cgettag a3, cs6",
    ],
    # both ends of windows, and one past them
    "addresses in and out of windows": [
        ROOT, *AT_PAGE, "csetboundsimm cs6, cs5, 4095", ("a0", 0x8000_47ff), "csetaddr cs7, cs6, a0", "cincoffsetimm cs8, cs7, 1",
        "cgetbase a3, cs8", ("a0", 0x8000_0800), "csetaddr cs7, cs6, a0", "cgetbase a3, cs7", "cincoffsetimm cs8, cs7, -1",
        "cgetbase a3, cs8",
        "csetboundsimm cs6, cs4, 16", ("a0", 0xffff_ffff_ffff_ffff), "cincoffset cs7, cs6, a0", "cgetbase a3, cs7",
        ("a0", 0xffff_ffff_ffff_f7ff), "cincoffset cs7, cs6, a0",
    ],
    "seals, entries, permissions and flags": [
        ROOT, *AT_PAGE, "csetboundsimm cs6, cs5, 4095",
        ("a0", 0x3_fffb), "csetaddr cs7, cs4, a0", "cseal cs8, cs6, cs7", "cgettype a3, cs8", "cgetsealed a3, cs8", "cunseal cs9, cs8, cs7",
        "csetaddr cs9, cs8, a0", "cincoffsetimm cs7, cs7, 1", "cseal cs8, cs6, cs7", "cgettype a3, cs8", "cincoffsetimm cs7, cs7, 2",
        "csealentry cs8, cs6", "cunseal cs9, cs8, cs7",
        ("a0", 0x8003), "candperm cs8, cs6, a0", "cgetperm a3, cs8", "csetflags cs8, cs6, a0", "cgetflags a3, cs8",
        # register 0 as rs1 is DDC, which is root
        "ctestsubset a3, cs4, cs6", "ctestsubset a3, cs6, cs4", "ctestsubset a3, cnull, cs6",
        "csetequalexact a3, cs6, cs6", "ccleartag cs8, cs6", "csetequalexact a3, cs6, cs8", "cmove cs8, cs6", "csub a3, cs6, cs4",
        "cgetaddr a3, cs6",
    ],
}
