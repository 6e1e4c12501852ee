# list: a list of letters whose links are capabilities, each to one node and to nothing else. A byte that is stored over a
# link makes data of it, and the list ends there.
#
#   cherisim asm examples/list.s list.img
#   cherisim run list.img 1000
#
# A capability in memory has a tag beside it, which no store of data can set. Whoever writes over a link, by mistake or on
# purpose, can't make a capability to another place of it: its tag is gone, and the walk stops before it is used.

        .mode   0
        .entry  start                   # at the end of this text: gives up root

list:   cspecialrw cs2, ddc, cnull      # all of memory: what the links are made from

# three nodes, the last of the list first: ca0 is the list so far, which ends with no capability
        cmove   ca0, cnull
        la      t1, nodes
        li      a2, 99                  # 'c', then 'b', then 'a'
        li      a3, 3
make:   csetaddr ca1, cs2, t1
        csetboundsimm ca1, ca1, 32      # this node and no other
        sc.cap  ca0, (ca1)              # its link
        cincoffsetimm ca4, ca1, 16
        sb.cap  a2, (ca4)               # its letter
        cmove   ca0, ca1
        addi    t1, t1, 32
        addi    a2, a2, -1
        addi    a3, a3, -1
        bne     a3, zero, make

        jal     ra, send                # abc

# one byte over the link of 'b', through the default data capability, which has all of memory in its bounds
        la      t1, nodes
        sb      zero, 32(t1)
        jal     ra, send                # ab

        lui     a1, 0x100
        sd      zero, 0(a1)

# send: sends the letters of the list at ca0, and a line feed.
send:   lui     t0, 0x10000
        cmove   ca1, ca0
next:   cgettag t1, ca1
        beq     t1, zero, last
        cincoffsetimm ca4, ca1, 16
        lbu.cap a2, (ca4)
        sb      a2, 0(t0)
        lc.cap  ca1, (ca1)
        j       next
last:   li      a2, 10
        sb      a2, 0(t0)
        ret

        .align  5
nodes:  .zero   96

# Where it starts: root is given up. DDC and PCC keep what loads, stores and runs bytes and moves capabilities; nothing can be
# sealed and no system register reached.
start:  cspecialrw ct0, pcc, cnull      # root
        li      t1, 0x3f                # Global, Execute, Load, Store, Load_Capability, Store_Capability
        candperm ct0, ct0, t1
        cspecialrw cnull, ddc, ct0
        la      t1, list
        csetaddr ct0, ct0, t1
        jalr.cap cnull, ct0
