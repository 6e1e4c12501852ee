# A jumps to the end of its page of code: cause 1, length.

        .align  12
a_code: j       a_start
        .word   0                       # no door

a_start: cspecialrw ct0, pcc, cnull
        cgetbase t1, ct0
        csetaddr ct0, ct0, t1
        lui     t1, 1                   # a page
        cincoffset ct0, ct0, t1
        cjalr   cnull, 0(ct0)
