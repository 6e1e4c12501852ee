# A leaves its data in every register but a7, and in DDC, while B runs. It finds it in the registers again, and DDC null.

        .align  12
a_code: j       a_start
        .word   0                       # no door

a_start: cspecialrw cnull, ddc, cgp
        cmove   cra, cgp
        cmove   csp, cgp
        cmove   ctp, cgp
        cmove   ct0, cgp
        cmove   ct1, cgp
        cmove   ct2, cgp
        cmove   cs0, cgp
        cmove   cs1, cgp
        cmove   ca0, cgp
        cmove   ca1, cgp
        cmove   ca2, cgp
        cmove   ca3, cgp
        cmove   ca4, cgp
        cmove   ca5, cgp
        cmove   ca6, cgp
        cmove   cs2, cgp
        cmove   cs3, cgp
        cmove   cs4, cgp
        cmove   cs5, cgp
        cmove   cs6, cgp
        cmove   cs7, cgp
        cmove   cs8, cgp
        cmove   cs9, cgp
        cmove   cs10, cgp
        cmove   cs11, cgp
        cmove   ct3, cgp
        cmove   ct4, cgp
        cmove   ct5, cgp
        cmove   ct6, cgp
        li      a7, 2                   # yield
        ecall

# t0: how many of the 30 are tagged, and one less if DDC is
        cgettag t0, ct0
        cgettag t1, ct1
        add     t0, t0, t1
        cgettag t1, cra
        add     t0, t0, t1
        cgettag t1, csp
        add     t0, t0, t1
        cgettag t1, cgp
        add     t0, t0, t1
        cgettag t1, ctp
        add     t0, t0, t1
        cgettag t1, ct2
        add     t0, t0, t1
        cgettag t1, cs0
        add     t0, t0, t1
        cgettag t1, cs1
        add     t0, t0, t1
        cgettag t1, ca0
        add     t0, t0, t1
        cgettag t1, ca1
        add     t0, t0, t1
        cgettag t1, ca2
        add     t0, t0, t1
        cgettag t1, ca3
        add     t0, t0, t1
        cgettag t1, ca4
        add     t0, t0, t1
        cgettag t1, ca5
        add     t0, t0, t1
        cgettag t1, ca6
        add     t0, t0, t1
        cgettag t1, cs2
        add     t0, t0, t1
        cgettag t1, cs3
        add     t0, t0, t1
        cgettag t1, cs4
        add     t0, t0, t1
        cgettag t1, cs5
        add     t0, t0, t1
        cgettag t1, cs6
        add     t0, t0, t1
        cgettag t1, cs7
        add     t0, t0, t1
        cgettag t1, cs8
        add     t0, t0, t1
        cgettag t1, cs9
        add     t0, t0, t1
        cgettag t1, cs10
        add     t0, t0, t1
        cgettag t1, cs11
        add     t0, t0, t1
        cgettag t1, ct3
        add     t0, t0, t1
        cgettag t1, ct4
        add     t0, t0, t1
        cgettag t1, ct5
        add     t0, t0, t1
        cgettag t1, ct6
        add     t0, t0, t1
        cspecialrw ct1, ddc, cnull
        cgettag t1, ct1
        sub     t0, t0, t1
        li      t1, 30
        bne     t0, t1, a_end
        li      a7, 1                   # send
        li      a0, 97                  # 'a'
        ecall
a_end:  li      a7, 0                   # end
        ecall

        .align  12
a_data: .dword  0
