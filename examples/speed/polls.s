# polls: a load of the console's status at every fourth step, for timing.
#
#   cherisim asm examples/speed/polls.s polls.img
#   time cherisim run polls.img 100000000 --tick 0

        .pages  1
        la      t0, rounds
        ld      s1, 0(t0)
        lui     s2, 0x10000             # the console

round:  ld      t1, 16(s2)              # status
        add     a0, a0, t1
        addi    s1, s1, -1
        bne     s1, zero, round

        lui     s7, 0x100
        sd      zero, 0(s7)             # halt

        .align  3
rounds: .dword  4096000
