# granted: RAM holds four capabilities from the start, and the program uses these and no other.
#
#   cherisim asm examples/granted.s granted.img
#   cherisim run granted.img 1000
#
# .cap puts a capability into RAM: base, length, permissions, flag. A program that begins with such a table need not cut its
# capabilities out of one that has everything, and whoever reads the image sees what it is given.

        .mode   1                       # capability mode: each address is a capability

        cla     ct0, table              # the program counter as a capability, moved to the table
        clc     ca0, 0(ct0)             # the text
        clc     ca1, 16(ct0)            # the console
        clc     ca2, 32(ct0)            # halt
        clc     ct1, 48(ct0)            # the code that follows

# root is given up: none is left in a register, and PCC is the code's own capability
        cmove   ct0, cnull
        cspecialrw cnull, ddc, ct0
        cjalr   cnull, 0(ct1)

send:   cgetlen t1, ca0                 # as many bytes as the capability has
next:   clbu    t2, 0(ca0)
        csb     t2, 0(ca1)
        cincoffsetimm ca0, ca0, 1
        addi    t1, t1, -1
        bne     t1, zero, next

        csd     zero, 0(ca2)

        .align  4
table:  .cap    text, 20, 0x5, 0        # Global and Load: it can be read
        .cap    0x10000000, 1, 0x9, 0   # Global and Store: a byte can be sent
        .cap    0x100000, 8, 0x9, 0     # Global and Store
        .cap    send, 28, 0x3, 1        # Global and Execute, in capability mode
text:   .ascii  "granted, not taken.\n"
