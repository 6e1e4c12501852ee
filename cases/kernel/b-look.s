# B tells, as a digit, how many of its registers and DDC are not null, beside the five that the kernel gives it.

        .align  12
b_code: j       b_start
        .word   0                       # no door

# t0: how many of the other 26, and DDC, are null
b_start: csetequalexact t0, ct0, cnull
        csetequalexact t1, ct1, cnull
        add     t0, t0, t1
        csetequalexact t1, cra, cnull
        add     t0, t0, t1
        csetequalexact t1, csp, cnull
        add     t0, t0, t1
        csetequalexact t1, ctp, cnull
        add     t0, t0, t1
        csetequalexact t1, ct2, cnull
        add     t0, t0, t1
        csetequalexact t1, ca0, cnull
        add     t0, t0, t1
        csetequalexact t1, ca1, cnull
        add     t0, t0, t1
        csetequalexact t1, ca2, cnull
        add     t0, t0, t1
        csetequalexact t1, ca3, cnull
        add     t0, t0, t1
        csetequalexact t1, ca4, cnull
        add     t0, t0, t1
        csetequalexact t1, ca5, cnull
        add     t0, t0, t1
        csetequalexact t1, ca6, cnull
        add     t0, t0, t1
        csetequalexact t1, ca7, cnull
        add     t0, t0, t1
        csetequalexact t1, cs4, cnull
        add     t0, t0, t1
        csetequalexact t1, cs5, cnull
        add     t0, t0, t1
        csetequalexact t1, cs6, cnull
        add     t0, t0, t1
        csetequalexact t1, cs7, cnull
        add     t0, t0, t1
        csetequalexact t1, cs8, cnull
        add     t0, t0, t1
        csetequalexact t1, cs9, cnull
        add     t0, t0, t1
        csetequalexact t1, cs10, cnull
        add     t0, t0, t1
        csetequalexact t1, cs11, cnull
        add     t0, t0, t1
        csetequalexact t1, ct3, cnull
        add     t0, t0, t1
        csetequalexact t1, ct4, cnull
        add     t0, t0, t1
        csetequalexact t1, ct5, cnull
        add     t0, t0, t1
        csetequalexact t1, ct6, cnull
        add     t0, t0, t1
        cspecialrw ct1, ddc, cnull
        csetequalexact t1, ct1, cnull
        add     t0, t0, t1
        li      t1, 27
        sub     a0, t1, t0
        addi    a0, a0, 48              # the digit
        li      a7, 1                   # send
        ecall
        li      a7, 0                   # end
        ecall

        .align  12
b_data: .dword  0
