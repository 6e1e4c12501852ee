# A loads from B's frame by its address, which is a number and no capability: cause 2, tag.

        .align  12
a_data: .dword  b_frame

        .align  12
a_code: j       a_start
        .word   0                       # no door

a_start: cld    t0, 0(cgp)              # the number
        cld     t1, 0(ct0)
