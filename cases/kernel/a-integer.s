# A stores through the address of B's data, which is a number and no capability: cause 2, tag.

        .align  12
a_data: .dword  b_data

        .align  12
a_code: j       a_start
        .word   0                       # no door

a_start: cld    t0, 0(cgp)              # the number
        csb     zero, 0(ct0)
