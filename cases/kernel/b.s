# B: sends 'b' three times, and lets A run after each.

        .align  12
b_code: j       b_start
        .word   0                       # no door: whoever comes in here faults

b_start: li     s4, 3
b_again: li     a7, 1                   # send
        li      a0, 98                  # 'b'
        ecall
        li      a7, 2                   # yield
        ecall
        addi    s4, s4, -1
        bne     s4, zero, b_again
        li      a7, 0                   # end
        ecall

        .align  12
b_data: .dword  0
