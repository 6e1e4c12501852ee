# hello: sends a line to the console and halts.
#
#   cherisim asm examples/hello.s hello.img
#   cherisim run hello.img 1000
#
# A byte that is stored at 0x10000000 is sent. A double word that is stored at 0x00100000 halts the machine with that
# number; 0 says that all went well.

        .entry  start                   # at the end of this text: gives up root

hello:  lui     a1, 0x10000             # a1: where bytes are sent
        la      a2, text                # a2: the next byte
        la      a3, end                 # a3: where the text ends
next:   lbu     a0, 0(a2)
        sb      a0, 0(a1)
        addi    a2, a2, 1
        bne     a2, a3, next
        lui     a1, 0x100               # a1: the halt register
        sd      zero, 0(a1)

text:   .ascii  "hello, world\n"
end:

# Where it starts: root is given up. DDC and PCC keep what loads, stores and runs bytes; no capability can be moved, nothing
# sealed and no system register reached, whatever the code does.
        .align  2
start:  cspecialrw ct0, pcc, cnull      # root
        li      t1, 0xf                 # Global, Execute, Load, Store
        candperm ct0, ct0, t1
        cspecialrw cnull, ddc, ct0
        la      t1, hello
        csetaddr ct0, ct0, t1
        jalr.cap cnull, ct0
