# bounds: a store one byte past the end of its capability traps, and the handler says what happened.
#
#   cherisim asm examples/bounds.s bounds.img
#   cherisim run bounds.img 10000
#
# A capability carries the bounds of what it may be used for. Here ca0 gets a table of 16 bytes and no more. The hardware,
# not the program, checks each store, and the trap names the register and the cause: mcause is 28 (a CHERI fault), and
# mtval is 32 times the register's number and the cause (1 is a length violation).

        .mode   0
        .entry  start                   # at the end of this text: gives up root

# the handler: MTCC, a capability, is where traps go
bounds: cspecialrw ct0, pcc, cnull      # the program counter as a capability
        la      t1, trap
        csetaddr ct0, ct0, t1
        cspecialrw cnull, mtcc, ct0

# a capability to the table alone, made from the default data capability
        cspecialrw ca0, ddc, cnull
        la      t1, table
        csetaddr ca0, ca0, t1
        csetboundsimm ca0, ca0, 16

# every byte of the table takes a store; the one after it doesn't
        li      a2, 0x2a
        li      a3, 17                  # one too many
fill:   sb.cap  a2, (ca0)
        cincoffsetimm ca0, ca0, 1
        addi    a3, a3, -1
        bne     a3, zero, fill

        la      a0, unharmed            # not reached
        jal     ra, send
        j       halt

trap:   la      a0, said
        jal     ra, send
        csrrs   a0, mcause, zero
        jal     ra, decimal
        la      a0, register
        jal     ra, send
        csrrs   a0, mtval, zero
        srli    a0, a0, 5
        jal     ra, decimal
        la      a0, cause
        jal     ra, send
        csrrs   a0, mtval, zero
        andi    a0, a0, 31
        jal     ra, decimal
        la      a0, line_feed
        jal     ra, send

halt:   lui     a1, 0x100
        sd      zero, 0(a1)

# send: sends the text at a0 up to a byte of 0.
send:   lui     t0, 0x10000
byte:   lbu     t1, 0(a0)
        beq     t1, zero, sent
        sb      t1, 0(t0)
        addi    a0, a0, 1
        j       byte
sent:   ret

# decimal: sends a0, below 100, in decimal.
decimal:
        lui     t0, 0x10000
        li      t1, 10
        divu    t2, a0, t1
        remu    t1, a0, t1
        beq     t2, zero, ones
        addi    t2, t2, 48
        sb      t2, 0(t0)
ones:   addi    t1, t1, 48
        sb      t1, 0(t0)
        ret

said:      .ascii "trap: mcause \0"
register:  .ascii ", register \0"
cause:     .ascii ", cause \0"
line_feed: .ascii "\n\0"
unharmed:  .ascii "no trap\n\0"

        .align  4
table:  .zero   16
        .zero   16                      # what a store past the table would reach

# Where it starts: root is given up. DDC, PCC and MEPCC keep what loads, stores and runs bytes, and the system registers, which the
# handler reads; no capability can be moved and nothing sealed.
        .align  2
start:  cspecialrw ct0, pcc, cnull      # root
        li      t1, 0x40f               # Global, Execute, Load, Store, Access_System_Registers
        candperm ct0, ct0, t1
        cspecialrw cnull, ddc, ct0
        cspecialrw cnull, mepcc, ct0
        la      t1, bounds
        csetaddr ct0, ct0, t1
        jalr.cap cnull, ct0
