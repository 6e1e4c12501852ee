# A stores to its code: cause 13, Store.

        .align  12
a_code: j       a_start
        .word   0                       # no door

a_start: cspecialrw ct0, pcc, cnull
        csw     zero, 0(ct0)
