# compartments: two programs that do not trust one another, and the kernel between them.
#
#   cherisim asm examples/compartments.s compartments.img
#   cherisim run compartments.img 100000 --tick 0
#
# A calls B by a sealed pair, B has the kernel send 'c' and comes back by A's, A sends 'a' and ends, and B sends 'b' three times.
# docs/COMPARTMENTS.md walks through it; cases/kernel has other compartments for this kernel.
#
# After the kernel stand B and A, which place a page of code (b_code, a_code) and a page of data (b_data, a_data) each. The
# first word of a page of code is where the compartment starts. The second is its door: there, and nowhere else, the other
# compartment comes in, by CInvoke of the pair that the kernel sealed.
#
# A compartment starts with these registers; every other one is null, and so is DDC whenever it is given the processor:
#   cgp        its data
#   cs0, cs1   the other's door: code and data, sealed with the other's type (1 for A, 2 for B)
#   cs2, cs3   its own door, sealed with its own type, to be passed on
# None of them has Access_System_Registers, Seal or Unseal. So a compartment has no way to the kernel but a trap.
#
# A system call is ECALL with a number in a7: 0 ends the compartment, 1 sends the low byte of a0, 2 lets the other one run.
# Another number does nothing. A CHERI fault sends '!', the compartment's letter and the cause as two hexadecimal digits, and
# ends the compartment; another exception sends '?' in place of '!', and mcause. The one that runs is the one that faults,
# also while it is inside the other's door. When both have ended the machine halts with 0.

        .pages  16
        .mode   1

# ---- Start. PCC is root until the first mret, and all that anybody has is made from it here. -------------------------------

start:  cmove   ct0, cnull
        cspecialrw cnull, ddc, ct0      # null: an integer is no way to memory. (Register 0 as the source writes nothing.)

# where traps go: the kernel's page of code, to be run and not to be read
        cla     ct0, trap
        lui     t1, 1                   # a page
        csetboundsexact ct0, ct0, t1
        li      t1, 0x402               # Execute, Access_System_Registers
        candperm ct0, ct0, t1
        cincoffsetimm ct0, ct0, 1       # vectored: an interrupt goes 4 bytes a number past the page's beginning
        cspecialrw cnull, mtcc, ct0

# the devices, 8 bytes each: a capability to each in a table that only MTDC leads to
        cspecialrw cs5, pcc, cnull
        cla     cs4, devices
        li      a2, 8                   # Store
        lui     a1, 0x10000             # transmit
        cjal    cra, make_device
        lui     a1, 0x100               # halt
        cjal    cra, make_device
        lui     a1, 0x2004              # mtimecmp
        cjal    cra, make_device
        lui     a1, 0x200c
        addi    a1, a1, -8              # mtime
        li      a2, 4                   # Load
        cjal    cra, make_device
        cla     cs4, devices
        csetboundsimm cs4, cs4, 64
        li      t0, 0x14                # Load, Load_Capability
        candperm cs4, cs4, t0
        cspecialrw cnull, mtdc, cs4

# the two frames, where a trap saves what a compartment had
        li      a0, 544
        li      t1, 0x7c                # Load, Store, and both for capabilities, also for those that are not Global
        cla     cs0, a_frame
        csetboundsexact cs0, cs0, a0
        candperm cs0, cs0, t1
        cla     cs1, b_frame
        csetboundsexact cs1, cs1, a0
        candperm cs1, cs1, t1
        csc     cs1, 512(cs0)           # each leads to the other's
        csc     cs0, 512(cs1)

# the two compartments
        cla     ca0, a_code
        cla     ca1, a_data
        cmove   ca2, cs0
        li      a3, 1                   # A's type
        li      a4, 65                  # 'A'
        cjal    cra, make_compartment
        csc     ca0, 128(cs1)           # A's door, for B
        csc     ca1, 144(cs1)
        cla     ca0, b_code
        cla     ca1, b_data
        cmove   ca2, cs1
        li      a3, 2                   # B's type
        li      a4, 66                  # 'B'
        cjal    cra, make_compartment
        csc     ca0, 128(cs0)           # B's door, for A
        csc     ca1, 144(cs0)

# the clock, and A first. The mret gives away PCC, and the frame overwrites every register: nothing is left of root.
        cjal    cra, set_clock
        li      t0, 128
        csrrs   zero, mie, t0           # the timer alone may interrupt
        csrrs   zero, mstatus, t0       # MPIE: from the mret on
        cmove   c31, cs0
        j       resume

# make_device: the capability to the register at a1 with the permissions in a2, into the next place of the table in cs4.
make_device:
        csetaddr ct0, cs5, a1
        li      t1, 8
        csetboundsexact ct0, ct0, t1
        candperm ct0, ct0, a2
        csc     ct0, 0(cs4)
        cincoffsetimm cs4, cs4, 16
        cjalr   cnull, 0(cra)

# make_compartment: of root at its code (ca0) and at its data (ca1), its frame (ca2), its type (a3) and its letter (a4).
# Answers its door, sealed, in ca0 and ca1: all that an outsider is given.
make_compartment:
        lui     t0, 1                   # a page
        csetboundsexact ca0, ca0, t0
        csetboundsexact ca1, ca1, t0
        li      t1, 0x107               # Global, Execute, Load, CInvoke
        candperm ca0, ca0, t1
        li      t1, 0x13d               # Global, Load, Store, Load_Capability, Store_Capability, CInvoke
        candperm ca1, ca1, t1
        csc     ca0, 0(ca2)             # MEPCC: it starts at its first word
        csc     ca1, 48(ca2)            # cgp
        csd     a4, 528(ca2)
        li      t0, 1
        csd     t0, 536(ca2)            # it has not ended
        csetaddr ct0, cs5, a3           # the type to seal with is this one's address
        csetboundsimm ct0, ct0, 1
        cincoffsetimm ca0, ca0, 4       # the door: its second word
        cseal   ca0, ca0, ct0
        cseal   ca1, ca1, ct0
        csc     ca0, 288(ca2)           # cs2
        csc     ca1, 304(ca2)           # cs3
        cjalr   cnull, 0(cra)

# ---- The kernel's code: all of it that is left after the start. ------------------------------------------------------------

        .align  12

# The entries of traps, at the beginning of a page: exceptions at 0, interrupt n at 4 * n.
trap:   j       exception
        .zero   24
        j       timer                   # 7, and only the timer's is let in

# save: registers 2 to 31 and MEPCC into the frame in c31. Whoever traps has put register 1 there, and register 31 into MScratchC.
# Register n goes to 16 * n in the frame, and MEPCC to 0.
save:   csc     c2, 32(c31)
        csc     c3, 48(c31)
        csc     c4, 64(c31)
        csc     c5, 80(c31)
        csc     c6, 96(c31)
        csc     c7, 112(c31)
        csc     c8, 128(c31)
        csc     c9, 144(c31)
        csc     c10, 160(c31)
        csc     c11, 176(c31)
        csc     c12, 192(c31)
        csc     c13, 208(c31)
        csc     c14, 224(c31)
        csc     c15, 240(c31)
        csc     c16, 256(c31)
        csc     c17, 272(c31)
        csc     c18, 288(c31)
        csc     c19, 304(c31)
        csc     c20, 320(c31)
        csc     c21, 336(c31)
        csc     c22, 352(c31)
        csc     c23, 368(c31)
        csc     c24, 384(c31)
        csc     c25, 400(c31)
        csc     c26, 416(c31)
        csc     c27, 432(c31)
        csc     c28, 448(c31)
        csc     c29, 464(c31)
        csc     c30, 480(c31)
        cspecialrw c2, mscratchc, c31   # and back: c2 is what register 31 was
        csc     c2, 496(c31)
        cspecialrw c2, mepcc, cnull
        csc     c2, 0(c31)
        cjalr   cnull, 0(cra)

# An exception. MScratchC leads to the frame of the compartment that runs; after `save` so does c31, and a0 and a7 are still the
# compartment's own.
exception:
        cspecialrw c31, mscratchc, c31  # register 31 and the frame change places
        csc     c1, 16(c31)
        cjal    cra, save
        csrrs   t0, mcause, zero
        li      t1, 11
        beq     t0, t1, system_call
        j       fault

# A system call: go on after the ECALL, unless it ends the compartment.
system_call:
        clc     ct0, 0(c31)
        cincoffsetimm ct0, ct0, 4
        csc     ct0, 0(c31)
        beq     a7, zero, ending
        li      t0, 1
        beq     a7, t0, call_send
        li      t0, 2
        beq     a7, t0, switch
        j       resume

call_send:
        cjal    cra, send
        j       resume

# The timer's interrupt: the next one is 50 ticks away, and the other compartment runs.
timer:  cspecialrw c31, mscratchc, c31
        csc     c1, 16(c31)
        cjal    cra, save
        cjal    cra, set_clock
        j       switch

# A fault: '!', letter and CHERI cause, or '?', letter and mcause. t0 is mcause.
fault:  mv      s0, t0
        li      a0, 63                  # '?'
        li      t1, 28                  # a CHERI fault
        bne     s0, t1, tell
        csrrs   s0, mtval, zero         # 32 times the register, and the cause
        andi    s0, s0, 31
        li      a0, 33                  # '!'
tell:   cjal    cra, send
        cld     a0, 528(c31)
        cjal    cra, send
        srli    a0, s0, 4
        cjal    cra, send_digit
        andi    a0, s0, 15
        cjal    cra, send_digit
        j       ending

# Ending: the other one goes on, or nobody.
ending: csd     zero, 536(c31)
        clc     ct0, 512(c31)
        cld     t1, 536(ct0)
        bne     t1, zero, switch
        cspecialrw ct0, mtdc, cnull
        clc     ct0, 16(ct0)
        csd     zero, 0(ct0)            # halt with 0

# Switch: to the other one, unless it has ended.
switch: clc     ct0, 512(c31)
        cld     t1, 536(ct0)
        beq     t1, zero, resume
        cmove   c31, ct0

# Resume: the compartment of the frame in c31, with every register as it was, and none of anybody else's. DDC can be written
# without Access_System_Registers, and a frame has no place for it: it is null for whoever runs next.
resume: cspecialrw cnull, mscratchc, c31
        cmove   c1, cnull
        cspecialrw cnull, ddc, c1
        clc     c1, 0(c31)
        cspecialrw cnull, mepcc, c1
        clc     c1, 16(c31)
        clc     c2, 32(c31)
        clc     c3, 48(c31)
        clc     c4, 64(c31)
        clc     c5, 80(c31)
        clc     c6, 96(c31)
        clc     c7, 112(c31)
        clc     c8, 128(c31)
        clc     c9, 144(c31)
        clc     c10, 160(c31)
        clc     c11, 176(c31)
        clc     c12, 192(c31)
        clc     c13, 208(c31)
        clc     c14, 224(c31)
        clc     c15, 240(c31)
        clc     c16, 256(c31)
        clc     c17, 272(c31)
        clc     c18, 288(c31)
        clc     c19, 304(c31)
        clc     c20, 320(c31)
        clc     c21, 336(c31)
        clc     c22, 352(c31)
        clc     c23, 368(c31)
        clc     c24, 384(c31)
        clc     c25, 400(c31)
        clc     c26, 416(c31)
        clc     c27, 432(c31)
        clc     c28, 448(c31)
        clc     c29, 464(c31)
        clc     c30, 480(c31)
        clc     c31, 496(c31)
        mret

# set_clock: mtimecmp is mtime + 50. Changes ct0 and t1.
set_clock:
        cspecialrw ct0, mtdc, cnull
        clc     ct0, 48(ct0)
        cld     t1, 0(ct0)
        addi    t1, t1, 50
        cspecialrw ct0, mtdc, cnull
        clc     ct0, 32(ct0)
        csd     t1, 0(ct0)
        cjalr   cnull, 0(cra)

# send_digit: the hexadecimal digit of a0, which is below 16.
send_digit:
        addi    a0, a0, 48              # '0'
        li      t1, 58
        blt     a0, t1, send
        addi    a0, a0, 39              # from 'a' on

# send: the low byte of a0. Changes ct0.
send:   cspecialrw ct0, mtdc, cnull
        clc     ct0, 0(ct0)
        csb     a0, 0(ct0)
        cjalr   cnull, 0(cra)

# ---- The kernel's data. ----------------------------------------------------------------------------------------------------

        .align  12
devices: .zero  64                      # capabilities to transmit, halt, mtimecmp, mtime

# A frame: 32 capabilities; the other's frame at 512; the letter at 528; 0 at 536 once the compartment has ended.
a_frame: .zero  544
b_frame: .zero  544

# ---- b-start: B, which has a door. It sends 'b' three times, and lets A run after each. -------------------------------------

        .align  12
b_code: j       b_start
        j       b_door

b_start: li     s4, 3
b_again: li     a7, 1                   # send
        li      a0, 98                  # 'b'
        ecall
        li      a7, 2                   # yield
        ecall
        addi    s4, s4, -1
        bne     s4, zero, b_again
        li      a7, 0                   # end
        ecall

# ---- b-door: whoever comes in has a 'c' sent. -------------------------------------------------------------------------------

# ct6 is B's data; ca2 and ca3 are the pair to come back by, which the caller passed. What B held on its way out is cleared:
# the jump itself puts the caller's data into ct6.
b_door: li      a7, 1                   # send
        li      a0, 99                  # 'c'
        ecall
        cmove   ca0, cnull
        cmove   ca7, cnull
        cinvoke ca2, ca3

        .align  12
b_data: .dword  0

# ---- a-start: A, which has a door. ------------------------------------------------------------------------------------------

        .align  12
a_code: j       a_start
        j       a_door

a_start:

# ---- a-call: A calls B by its door. -----------------------------------------------------------------------------------------

# It passes the pair of its own door, which is sealed, and clears the rest: register by register, all that it was given.
        cmove   ca2, cs2                # to come back by
        cmove   ca3, cs3
        cmove   ca4, cs0
        cmove   ca5, cs1
        cmove   cgp, cnull
        cmove   cs0, cnull
        cmove   cs1, cnull
        cmove   cs2, cnull
        cmove   cs3, cnull
        cinvoke ca4, ca5                # B's own door

# ---- a-door: A comes back by its own, sends 'a' and ends. -------------------------------------------------------------------

# ct6 is A's data.
a_door: li      a7, 1                   # send
        li      a0, 97                  # 'a'
        ecall
        li      a7, 0                   # end
        ecall

        .align  12
a_data: .dword  0
