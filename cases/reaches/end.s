# How both programs end: the last granule, to which ca2 leads, gets the capability to transmit. All is given up but ca0, and ca3, which is
# PCC from the jump on.

        lui     t1, 0x10000             # transmit
        csetaddr ca1, ca3, t1
        csetboundsimm ca1, ca1, 8
        li      t1, 8                   # Store
        candperm ca1, ca1, t1
        csc     ca1, 0(ca2)
        cla     ca3, go
        csetboundsimm ca3, ca3, 64
        li      t1, 2                   # Execute
        candperm ca3, ca3, t1
        cmove   ca1, cnull
        cmove   ca2, cnull
        cmove   ct0, cnull
        cspecialrw cnull, ddc, ct0
        cjalr   cnull, 0(ca3)
go:     nop

        .org    0x80004000
first:
