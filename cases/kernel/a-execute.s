# A jumps to its data: cause 11, Execute.

        .align  12
a_code: j       a_start
        .word   0                       # no door

a_start: cjalr  cnull, 0(cgp)
