# RAM of 16 MB whose granules, but for those of the first four pages, all hold one capability to the first of them; the last one holds one
# to transmit. The code that runs then has PCC, of which ca3 is a copy, and ca0, which loads capabilities from all of these granules.

        .pages  4096
        .mode   1

start:  cspecialrw ca3, pcc, cnull      # root
        lui     t0, 0x1000
        cla     ca0, first
        lui     t1, 4
        sub     t0, t0, t1              # 16 MB but for four pages
        csetboundsexact ca0, ca0, t0
        csetboundsimm ca1, ca0, 16
        li      t1, 0x14                # Load, Load_Capability
        candperm ca1, ca1, t1
        cmove   ca2, ca0
        srli    t0, t0, 4
fill:   csc     ca1, 0(ca2)
        cincoffsetimm ca2, ca2, 16
        addi    t0, t0, -1
        bne     t0, zero, fill
        cincoffsetimm ca2, ca2, -16
        li      t1, 0x14
        candperm ca0, ca0, t1

