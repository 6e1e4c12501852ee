# echo: sends back what comes in, up to the end of the line.
#
#   cherisim asm examples/echo.s echo.img
#   cherisim run echo.img 10000 --input examples/echo.in --gap 20
#
# The status register at 0x10000010 has 1 in bit 0 while a byte waits; a load of the receive register at 0x10000008
# takes it. Without --gap a byte comes every 1000 steps.

        .entry  start                   # at the end of this text: gives up root

echo:   lui     a1, 0x10000             # a1: the console
wait:   ld      a0, 16(a1)              # status
        andi    a0, a0, 1
        beq     a0, zero, wait
        ld      a0, 8(a1)               # take a byte
        sb      a0, 0(a1)               # and send it
        addi    a0, a0, -10             # a line feed is the last
        bne     a0, zero, wait
        lui     a1, 0x100
        sd      zero, 0(a1)

# Where it starts: root is given up. DDC and PCC keep what loads, stores and runs bytes; no capability can be moved, nothing
# sealed and no system register reached, whatever the code does.
        .align  2
start:  cspecialrw ct0, pcc, cnull      # root
        li      t1, 0xf                 # Global, Execute, Load, Store
        candperm ct0, ct0, t1
        cspecialrw cnull, ddc, ct0
        la      t1, echo
        csetaddr ct0, ct0, t1
        jalr.cap cnull, ct0
