# A stores a byte past the top of its data: cause 1, length.

        .align  12
a_code: j       a_start
        .word   0                       # no door

a_start: lui    t0, 1                   # a page
        cincoffset ct0, cgp, t0         # its data's top; still tagged
        csb     zero, 0(ct0)
