# timer: five interrupts of the timer, each told by a dot.
#
#   cherisim asm examples/timer.s timer.img
#   cherisim run timer.img 10000 --tick 10
#
# mtime at 0x0200BFF8 counts ticks; with --tick 10 one comes after every tenth step. While mtime is at least mtimecmp, at
# 0x02004000, an interrupt is pending. It is taken when its bit 7 of mie and bit 3 of mstatus are set.

        .entry  start                   # at the end of this text: gives up root

timer:  cspecialrw ct0, pcc, cnull
        la      t1, trap
        csetaddr ct0, ct0, t1
        cspecialrw cnull, mtcc, ct0     # where interrupts go

        lui     s1, 0x2004              # s1: mtimecmp
        lui     s2, 0x10000             # s2: the console
        li      s3, 5                   # s3: interrupts to come
        li      s4, 3                   # s4: the time of the next
        sd      s4, 0(s1)
        li      t0, 128
        csrrs   zero, mie, t0           # the timer may interrupt
        csrrsi  zero, mstatus, 8        # interrupts on

wait:   wfi
        bne     s3, zero, wait

        csrrci  zero, mstatus, 8        # interrupts off
        li      a0, 10
        sb      a0, 0(s2)
        lui     a1, 0x100
        sd      zero, 0(a1)

trap:   li      a0, 46                  # '.'
        sb      a0, 0(s2)
        addi    s3, s3, -1
        addi    s4, s4, 3               # the next, three ticks later
        sd      s4, 0(s1)
        mret

# Where it starts: root is given up. DDC, PCC and MEPCC keep what loads, stores and runs bytes, and the system registers, which
# interrupts need; no capability can be moved and nothing sealed.
        .align  2
start:  cspecialrw ct0, pcc, cnull      # root
        li      t1, 0x40f               # Global, Execute, Load, Store, Access_System_Registers
        candperm ct0, ct0, t1
        cspecialrw cnull, ddc, ct0
        cspecialrw cnull, mepcc, ct0
        la      t1, timer
        csetaddr ct0, ct0, t1
        jalr.cap cnull, ct0
