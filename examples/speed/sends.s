# sends: a byte at every fourth step, for timing.
#
#   cherisim asm examples/speed/sends.s sends.img
#   time cherisim run sends.img 100000000 --tick 0 > /dev/null

        .pages  1
        la      t0, rounds
        ld      s1, 0(t0)
        lui     s2, 0x10000             # the console

round:  sb      a0, 0(s2)               # transmit
        addi    a0, a0, 1
        addi    s1, s1, -1
        bne     s1, zero, round

        lui     s7, 0x100
        sd      zero, 0(s7)             # halt

        .align  3
rounds: .dword  400000
