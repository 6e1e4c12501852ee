# A chain: a granule holds the capability to the next one, 1000 times, and the last one the capability to transmit. The code that runs
# then has PCC, of which ca3 is a copy, and ca0, which loads from the first granule alone.

        .pages  16
        .mode   1

start:  cspecialrw ca3, pcc, cnull      # root
        cla     ca0, first
        csetboundsimm ca0, ca0, 16
        li      t1, 0x14                # Load, Load_Capability
        candperm ca0, ca0, t1
        cla     ca2, first
        li      t0, 1000
link:   cincoffsetimm ca1, ca2, 16
        csetboundsimm ca1, ca1, 16
        candperm ca1, ca1, t1
        csc     ca1, 0(ca2)
        cincoffsetimm ca2, ca2, 16
        addi    t0, t0, -1
        bne     t0, zero, link

