# traps: an ECALL at every 20th step, for timing. The handler skips it.
#
#   cherisim asm examples/speed/traps.s traps.img
#   time cherisim run traps.img 100000000 --tick 0
#
# 819 200 rounds of 20 steps: the call, the handler's four instructions, and 15 others.

        .pages  1
        la      t0, handler
        csrrw   zero, mtvec, t0
        la      t0, rounds
        ld      s1, 0(t0)

round:  ecall
        add     a0, a0, a1
        xor     a2, a0, a1
        slli    a3, a2, 3
        sub     a4, a3, a0
        or      a5, a4, a2
        and     a6, a5, a0
        srli    a7, a6, 2
        addi    a1, a1, 3
        sltu    t1, a0, a1
        add     a2, a2, t1
        xor     a3, a3, a2
        addi    a4, a4, 1
        sub     a5, a5, a4
        addi    s1, s1, -1
        bne     s1, zero, round

        lui     s7, 0x100
        sd      zero, 0(s7)             # halt

handler: csrrs  t3, mepc, zero
        addi    t3, t3, 4
        csrrw   zero, mepc, t3
        mret

        .align  3
rounds: .dword  819200
