# A sends 'a' and lets B run, three times.

        .align  12
a_code: j       a_start
        .word   0                       # no door

a_start: li     s4, 3
a_again: li     a7, 1                   # send
        li      a0, 97                  # 'a'
        ecall
        li      a7, 2                   # yield
        ecall
        addi    s4, s4, -1
        bne     s4, zero, a_again
        li      a7, 0                   # end
        ecall

        .align  12
a_data: .dword  0
