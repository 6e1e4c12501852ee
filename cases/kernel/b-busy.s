# B sends 'b' three times and never lets A run: between them it counts to 2048.

        .align  12
b_code: j       b_start
        .word   0                       # no door

b_start: li     s4, 3
b_again: li     a7, 1                   # send
        li      a0, 98                  # 'b'
        ecall
        lui     s5, 1
        srli    s5, s5, 1
b_count: addi   s5, s5, -1
        bne     s5, zero, b_count
        addi    s4, s4, -1
        bne     s4, zero, b_again
        li      a7, 0                   # end
        ecall

        .align  12
b_data: .dword  0
