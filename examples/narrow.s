# narrow: bounds are cut before all is derived that they are to hold, and a later store traps.
#
#   cherisim asm examples/narrow.s narrow.img
#   cherisim run narrow.img 1000
#
# What is derived from a capability never has wider bounds than it. A message is a header of 16 bytes and a text after it. Who
# writes the header should reach no more than the header, and who writes the text no more than the text: two capabilities, both
# to be derived from the one for the whole message. Here the second is derived from the first, whose bounds are cut already. It
# keeps its tag, as its address may lie outside its bounds, and it is stored away and loaded; only its first use traps.

        .mode   1

# All that the program has stands in a table. Traps go to MTCC. Root is given up: DDC, MEPCC and the registers keep none of it,
# and PCC is the code's own capability.
        cla     ct0, table
        clc     cs0, 0(ct0)             # the room for messages
        clc     cs1, 16(ct0)            # the console
        clc     cs2, 32(ct0)            # halt
        clc     cs3, 48(ct0)            # the pointers that are kept
        clc     ct1, 64(ct0)
        cspecialrw cnull, mtcc, ct1
        clc     ct1, 80(ct0)
        cmove   ct0, cnull
        cspecialrw cnull, ddc, ct0
        cspecialrw cnull, mepcc, ct0
        cjalr   cnull, 0(ct1)

begin:  cmove   ca0, cs0
        cjal    cra, make
        cla     ca3, text
        cjal    cra, fill
        cla     ca0, filled             # not reached
        j       send

# make: makes a message at ca0 whose text has up to 48 bytes, and keeps pointers to its header and to its text.
make:   csetboundsimm ca0, ca0, 16      # the header, too early
        li      t0, 48
        csd     t0, 0(ca0)              # how many bytes of text
        li      t0, 1
        csd     t0, 8(ca0)              # the message's kind
        csc     ca0, 0(cs3)
        cincoffsetimm ca1, ca0, 16      # the text: outside the header's bounds
        csc     ca1, 16(cs3)
        cmove   ca0, cnull
        cmove   ca1, cnull
        ret

# fill: copies the text at ca3, up to a byte of 0, into the message.
fill:   clc     ca2, 16(cs3)
next:   clbu    t0, 0(ca3)
        csb     t0, 0(ca2)              # traps
        cincoffsetimm ca2, ca2, 1
        cincoffsetimm ca3, ca3, 1
        bne     t0, zero, next
        ret

# the handler: says whether an address was outside its bounds
trap:   cla     ca0, other
        csrrs   t0, mtval, zero
        andi    t0, t0, 31
        li      t1, 1                   # a length violation
        bne     t0, t1, send
        cla     ca0, outside

# send: sends the text at ca0 up to a byte of 0, and halts.
send:   clbu    t0, 0(ca0)
        beq     t0, zero, halt
        csb     t0, 0(cs1)
        cincoffsetimm ca0, ca0, 1
        j       send
halt:   csd     zero, 0(cs2)

text:    .ascii "wide enough\0"
filled:  .ascii "filled\n\0"
outside: .ascii "outside the bounds\n\0"
other:   .ascii "another trap\n\0"

        .align  4
table:  .cap    room, 64, 0x3d, 0       # Global, Load, Store, Load_Capability, Store_Capability
        .cap    0x10000000, 1, 0x9, 0   # Global and Store: a byte can be sent
        .cap    0x100000, 8, 0x9, 0     # Global and Store
        .cap    kept, 32, 0x3d, 0       # as the first
        .cap    trap, 112, 0x407, 1     # Global, Execute, Load, Access_System_Registers
        .cap    begin, 224, 0x7, 1      # Global, Execute, Load

        .align  4
kept:   .zero   32
room:   .zero   64
