# copy: a record with a pointer is copied by words, and the pointer's tag doesn't come along.
#
#   cherisim asm examples/copy.s copy.img
#   cherisim run copy.img 1000
#
# A capability in memory is 128 bits and a tag beside them. A load and a store of a whole capability take the tag along; loads and
# stores of words take the bits alone, and what stands there then is data. So memcpy, qsort and realloc that go by words break each
# pointer that they move: the first mistake of most ports. The trap comes later and elsewhere, where the pointer is used.

        .mode   1

# All that the program has stands in a table. Traps go to MTCC. Root is given up: DDC, MEPCC and the registers keep none of it,
# and PCC is the code's own capability.
        cla     ct0, table
        clc     cs0, 0(ct0)             # the record
        clc     cs1, 16(ct0)            # room for its copy
        clc     cs2, 32(ct0)            # the console
        clc     cs3, 48(ct0)            # halt
        clc     ct1, 64(ct0)
        cspecialrw cnull, mtcc, ct1
        clc     ct1, 80(ct0)
        cmove   ct0, cnull
        cspecialrw cnull, ddc, ct0
        cspecialrw cnull, mepcc, ct0
        cjalr   cnull, 0(ct1)

begin:  cmove   ca0, cs1
        cmove   ca1, cs0
        li      a2, 32
        cjal    cra, memcpy
        cmove   ca0, cs1
        j       print

# memcpy: copies a2 bytes, a multiple of 8, from ca1 to ca0, 8 at a time.
memcpy: cld     t0, 0(ca1)
        csd     t0, 0(ca0)
        cincoffsetimm ca1, ca1, 8
        cincoffsetimm ca0, ca0, 8
        addi    a2, a2, -8
        bne     a2, zero, memcpy
        ret

# print: sends the text of the record at ca0, and halts.
print:  clc     ca3, 0(ca0)
        cld     a4, 16(ca0)             # its length
next:   clbu    t0, 0(ca3)              # traps
        csb     t0, 0(cs2)
        cincoffsetimm ca3, ca3, 1
        addi    a4, a4, -1
        bne     a4, zero, next
        j       halt

# the handler: says whether a tag was missing
trap:   cla     ca0, other
        csrrs   t0, mtval, zero
        andi    t0, t0, 31
        li      t1, 2                   # a tag violation
        bne     t0, t1, send
        cla     ca0, tagless

# send: sends the text at ca0 up to a byte of 0, and halts.
send:   clbu    t0, 0(ca0)
        beq     t0, zero, halt
        csb     t0, 0(cs2)
        cincoffsetimm ca0, ca0, 1
        j       send
halt:   csd     zero, 0(cs3)

text:   .ascii "a text\n"
tagless: .ascii "no tag\n\0"
other:  .ascii "another trap\n\0"

        .align  4
table:  .cap    record, 32, 0x15, 0     # Global, Load, Load_Capability
        .cap    copied, 32, 0x3d, 0     # Global, Load, Store, Load_Capability, Store_Capability
        .cap    0x10000000, 1, 0x9, 0   # Global and Store: a byte can be sent
        .cap    0x100000, 8, 0x9, 0     # Global and Store
        .cap    trap, 128, 0x407, 1     # Global, Execute, Load, Access_System_Registers
        .cap    begin, 256, 0x7, 1      # Global, Execute, Load

# the record: a pointer to a text, and the text's length
record: .cap    text, 7, 0x5, 0         # Global, Load
        .dword  7, 0
copied: .zero   32
