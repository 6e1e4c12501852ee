# A asks for more than its data. That answers a capability without tag, and the store through it is refused: cause 2, tag.

        .align  12
a_code: j       a_start
        .word   0                       # no door

a_start: lui    t0, 2                   # two pages
        csetbounds ct0, cgp, t0
        csb     zero, 0(ct0)
