# A loads through the default data capability, which the kernel cleared: cause 2, tag.

        .align  12
a_data: .dword  a_data

        .align  12
a_code: j       a_start
        .word   0                       # no door

a_start: cld    t0, 0(cgp)              # an address of its own data, as a number
        lb.ddc  t1, (t0)
