# sealed: a counter that its user can call but not read or change.
#
#   cherisim asm examples/sealed.s sealed.img
#   cherisim run sealed.img 1000
#
# The counter's code and its data are two capabilities, sealed with the same type. Sealed, neither can be used or changed;
# CInvoke takes such a pair, unseals both at once, and goes on in the code, with the data in register 31 (ct6). The user
# keeps the pair and calls it twice. Then it tries to load through the sealed data itself, and that traps.

        cspecialrw cs2, ddc, cnull      # root, which makes the seal
        li      t1, 0x10f               # Global, Execute, Load, Store, Invoke
        candperm cs3, cs2, t1           # what code and data are made from

# traps go to the handler
        la      t1, trap
        csetaddr ct0, cs3, t1
        cspecialrw cnull, mtcc, ct0

# the type to seal with is the address of a capability with permission to seal: 5
        li      t1, 5
        csetaddr cs4, cs2, t1

# the counter's code, sealed
        la      t1, count
        csetaddr cs0, cs3, t1
        cseal   cs0, cs0, cs4

# the counter's data: 8 bytes, not executable, sealed
        la      t1, value
        csetaddr cs1, cs3, t1
        csetboundsimm cs1, cs1, 8
        li      t1, -3                  # every permission but Execute
        candperm cs1, cs1, t1
        cseal   cs1, cs1, cs4

# Everything is made, and root is given up: DDC and PCC keep what loads, stores and runs bytes and invokes, and nothing can be
# sealed.
        cspecialrw cnull, ddc, cs3
        cmove   cs2, cnull
        cmove   cs4, cnull
        la      t1, calls
        csetaddr ct0, cs3, t1
        jalr.cap cnull, ct0

# two calls: the link is a sentry, a capability that can only be jumped to
calls:  li      s5, 2
call:   la      t1, back
        csetaddr cra, cs3, t1
        csealentry cra, cra
        cinvoke cs0, cs1
back:   lui     a1, 0x10000
        addi    a0, a0, 48              # the digit's code
        sb      a0, 0(a1)
        addi    s5, s5, -1
        bne     s5, zero, call

# the user's own load through the sealed data traps
        ld.cap  a0, (cs1)
        li      a0, 63                  # '?': not reached
        j       last

trap:   li      a0, 33                  # '!'
last:   lui     a1, 0x10000
        sb      a0, 0(a1)
        li      a0, 10
        sb      a0, 0(a1)
        lui     a1, 0x100
        sd      zero, 0(a1)

# count: adds 1 to the counter in ct6 and answers it in a0. Its user's registers are as they were, so it clears ct6.
count:  ld.cap  a0, (ct6)
        addi    a0, a0, 1
        sd.cap  a0, (ct6)
        cmove   ct6, cnull
        jalr.cap cnull, cra

        .align  4
value:  .dword  0
