# A divides by zero, and divides the least number by -1. Neither traps; A sends 'a' if each answers as the manual says.

        .align  12
a_code: j       a_start
        .word   0                       # no door

a_start: li     t0, 7
        divu    t1, t0, zero
        li      t2, -1                  # all ones
        bne     t1, t2, a_end
        rem     t1, t0, zero
        bne     t1, t0, a_end           # the dividend
        slli    t0, t2, 63
        div     t1, t0, t2
        bne     t1, t0, a_end           # the dividend
        rem     t1, t0, t2
        bne     t1, zero, a_end
        li      a7, 1                   # send
        li      a0, 97                  # 'a'
        ecall
a_end:  li      a7, 0                   # end
        ecall

        .align  12
a_data: .dword  0
