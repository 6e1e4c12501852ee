# enclosed: a compartment whose kernel is never entered again, and a policy that every run keeps, whatever the compartment's code is.
#
#   cherisim asm examples/enclosed.s enclosed.img --symbols enclosed.sym
#   cherisim prove enclosed.img --policy examples/enclosed.policy --symbols enclosed.sym
#
# The kernel loads what the compartment gets from a table in RAM, leaves nothing else in a register, and jumps. A trap begins the
# compartment anew, for MTCC holds its code.

        .pages  3
        .mode   1

        cla     ct0, table
        clc     cra, 0(ct0)             # the compartment's code
        clc     cgp, 16(ct0)            # its data
        clc     ca1, 32(ct0)            # the console
        clc     ca2, 48(ct0)            # halt

# root is given up: DDC, and what a trap makes PCC or leaves to code
        cspecialrw cnull, ddc, cgp
        cspecialrw cnull, mtcc, cra
        cspecialrw cnull, mepcc, cra
        cmove   ct0, cnull
        cjalr   cnull, 0(cra)

        .align  4
table:  .cap    app, 4096, 0x7, 1       # Global, Execute and Load, in capability mode
        .cap    data, 4096, 0xd, 0      # Global, Load and Store: bytes, no capabilities
        .cap    0x10000000, 1, 0x9, 0   # Global and Store
        .cap    0x100000, 8, 0x9, 0     # Global and Store

        .align  12
app:    cla     ca0, text
next:   clbu    t2, 0(ca0)
        beq     t2, zero, done
        csb     t2, 0(ca1)
        cincoffsetimm ca0, ca0, 1
        j       next
done:   csd     zero, 0(ca2)
text:   .ascii  "enclosed, for ever\n\0"

        .align  12
data:   .zero   4096
