# A jumps to its own code, which it holds sealed: cause 3, seal. The pair of a door is invoked, or passed on, and no more.

        .align  12
a_code: j       a_start
        .word   0                       # no door

a_start: cjalr  cnull, 0(cs2)
