# A compartment that fills its data with 100,000 capabilities, and then calls its kernel 1,000 times: what watching costs where much is
# reachable after an entry. `entered.policy` says what it may do; docs/PERFORMANCE.md has the times.
        .pages  512
        .mode   1

# the kernel's code, to be run with the system registers
start:  cla     ct0, trap
        lui     t1, 1
        csetboundsexact ct0, ct0, t1
        li      t1, 0x402               # Execute, Access_System_Registers
        candperm ct0, ct0, t1
        cspecialrw cnull, mtcc, ct0
# the halt register, which only MTDC leads to
        cspecialrw cs5, pcc, cnull
        lui     a1, 0x100
        csetaddr ct0, cs5, a1
        csetboundsimm ct0, ct0, 8
        li      t1, 8
        candperm ct0, ct0, t1
        cspecialrw cnull, mtdc, ct0
# the compartment's data and code, and nothing of root
        cla     cgp, data
        lui     t1, 0x190               # 100 * 16384 bytes
        csetboundsexact cgp, cgp, t1
        li      t1, 0x7d
        candperm cgp, cgp, t1
        cla     ct0, code
        lui     t1, 1
        csetboundsexact ct0, ct0, t1
        li      t1, 0x107
        candperm ct0, ct0, t1
        cspecialrw cnull, mepcc, ct0
        cmove   ct0, cnull
        cspecialrw cnull, ddc, ct0      # (register 0 as the source writes nothing)
        cmove   cs5, cnull
        mret

        .align  12
# a call: 0 in a7 halts, another number comes back at once
trap:   beq     a7, zero, ends
        cspecialrw ct6, mepcc, cnull
        cincoffsetimm ct6, ct6, 4
        cspecialrw cnull, mepcc, ct6
        cmove   ct6, cnull
        mret
ends:   cspecialrw ct6, mtdc, cnull
        csd     zero, 0(ct6)
        j       ends

        .align  12
code:   lui     t0, 0x18
        addi    t0, t0, 0x6a0           # 100000
        cmove   ca0, cgp
fill:   csc     cgp, 0(ca0)
        cincoffsetimm ca0, ca0, 16
        addi    t0, t0, -1
        bne     t0, zero, fill
        li      t0, 1000
        li      a7, 1
again:  li      t1, 100
work:   clw     t2, 0(cgp)
        addi    t1, t1, -1
        bne     t1, zero, work
        ecall
        addi    t0, t0, -1
        bne     t0, zero, again
        li      a7, 0
        ecall

        .align  12
data:
