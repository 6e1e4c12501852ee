# primes: the prime numbers below 100, by trial division.
#
#   cherisim asm examples/primes.s primes.img
#   cherisim run primes.img 100000

        .entry  start                   # at the end of this text: gives up root

primes: lui     s1, 0x10000             # s1: where bytes are sent
        li      s2, 2                   # s2: the candidate
        li      s3, 100                 # s3: one past the last

candidate:
        li      t0, 2                   # t0: the divisor
divide: mul     t1, t0, t0
        blt     s2, t1, prime           # past the square root: nothing divides it
        rem     t1, s2, t0
        beq     t1, zero, next          # divided
        addi    t0, t0, 1
        j       divide

prime:  mv      a0, s2
        jal     ra, print
next:   addi    s2, s2, 1
        bne     s2, s3, candidate
        li      a0, 10
        sb      a0, 0(s1)               # a line feed
        lui     a1, 0x100
        sd      zero, 0(a1)             # halt with 0

# print: sends a0, below 100, in decimal and a space.
print:  li      t0, 10
        divu    t1, a0, t0              # tens
        remu    t2, a0, t0              # ones
        beq     t1, zero, ones
        addi    t1, t1, 48              # the digit's code
        sb      t1, 0(s1)
ones:   addi    t2, t2, 48
        sb      t2, 0(s1)
        li      t2, 32
        sb      t2, 0(s1)
        ret

# Where it starts: root is given up. DDC and PCC keep what loads, stores and runs bytes; no capability can be moved, nothing
# sealed and no system register reached, whatever the code does.
        .align  2
start:  cspecialrw ct0, pcc, cnull      # root
        li      t1, 0xf                 # Global, Execute, Load, Store
        candperm ct0, ct0, t1
        cspecialrw cnull, ddc, ct0
        la      t1, primes
        csetaddr ct0, ct0, t1
        jalr.cap cnull, ct0
