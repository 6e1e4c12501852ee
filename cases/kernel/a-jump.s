# A jumps to B's code, which it holds sealed: cause 3, seal.

        .align  12
a_code: j       a_start
        .word   0                       # no door

a_start: cjalr  cnull, 0(cs0)
