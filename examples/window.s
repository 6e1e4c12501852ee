# window: an address is moved far outside its capability's bounds and back, and the tag doesn't come back.
#
#   cherisim asm examples/window.s window.img
#   cherisim run window.img 1000
#
# A capability's bounds are kept in few bits, beside its address. So the address may lie outside the bounds, but not far: it
# has a window, which for something small begins about 2048 bytes below it and is 16384 bytes long. An instruction that takes
# the address out of the window takes the tag, for good.
#
# Here counters for the years from 1990 on are kept as though they began with the year 0, so that a year is their index. That
# is usual in C, and not allowed there. `count` takes the address back into the bounds, where it uses it, and traps.

        .mode   1

# All that the program has stands in a table. Traps go to MTCC. Root is given up: DDC, MEPCC and the registers keep none of it,
# and PCC is the code's own capability.
        cla     ct0, table
        clc     cs0, 0(ct0)             # the pointers that are kept
        clc     cs1, 16(ct0)            # the console
        clc     cs2, 32(ct0)            # halt
        clc     ct1, 48(ct0)
        cspecialrw cnull, mtcc, ct1
        clc     ct1, 64(ct0)
        cmove   ct0, cnull
        cspecialrw cnull, ddc, ct0
        cspecialrw cnull, mepcc, ct0
        cjalr   cnull, 0(ct1)

# two pieces of the pool: one for a name, and 16 counters of 8 bytes, for 1990 to 2005
begin:  li      a0, 32
        cjal    cra, alloc
        csc     ca0, 16(cs0)
        li      a0, 128
        cjal    cra, alloc
        csc     ca0, 32(cs0)

# the name: one letter
        clc     ca3, 16(cs0)
        li      t0, 121                 # 'y'
        csb     t0, 0(ca3)

# the counters, as though they began with the year 0: 15920 bytes lower
        clc     ca1, 32(cs0)
        li      t1, -1990
        slli    t1, t1, 3
        cincoffset ca1, ca1, t1         # outside the window
        csc     ca1, 32(cs0)

        li      a2, 1999
        cjal    cra, count
        li      a2, 2003                # not reached
        cjal    cra, count
        cla     ca0, counted
        j       send

# alloc: answers in ca0 a0 bytes of the pool, a multiple of 16. The pool's rest is kept as the first pointer.
alloc:  clc     ca1, 0(cs0)
        cincoffset ca2, ca1, a0
        csetbounds ca0, ca1, a0
        csc     ca2, 0(cs0)
        cmove   ca1, cnull
        cmove   ca2, cnull
        ret

# count: counts the year in a2.
count:  clc     ca3, 32(cs0)
        slli    t1, a2, 3
        cincoffset ca3, ca3, t1         # inside the bounds again
        cld     t2, 0(ca3)              # traps
        addi    t2, t2, 1
        csd     t2, 0(ca3)
        ret

# the handler: says whether a tag was missing
trap:   cla     ca0, other
        csrrs   t0, mtval, zero
        andi    t0, t0, 31
        li      t1, 2                   # a tag violation
        bne     t0, t1, send
        cla     ca0, tagless

# send: sends the text at ca0 up to a byte of 0, and halts.
send:   clbu    t0, 0(ca0)
        beq     t0, zero, halt
        csb     t0, 0(cs1)
        cincoffsetimm ca0, ca0, 1
        j       send
halt:   csd     zero, 0(cs2)

counted: .ascii "counted\n\0"
tagless: .ascii "no tag\n\0"
other:   .ascii "another trap\n\0"

        .align  4
table:  .cap    kept, 48, 0x3d, 0       # Global, Load, Store, Load_Capability, Store_Capability
        .cap    0x10000000, 1, 0x9, 0   # Global and Store: a byte can be sent
        .cap    0x100000, 8, 0x9, 0     # Global and Store
        .cap    trap, 96, 0x407, 1      # Global, Execute, Load, Access_System_Registers
        .cap    begin, 240, 0x7, 1      # Global, Execute, Load
kept:   .cap    pool, 512, 0xd, 0       # Global, Load, Store
        .zero   32

        .align  4
pool:   .zero   512
