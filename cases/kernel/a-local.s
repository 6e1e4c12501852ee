# A lets B run while it holds a capability that is not Global. The frame keeps that too: A sends 'a' if it is still tagged.

        .align  12
a_code: j       a_start
        .word   0                       # no door

a_start: li     t0, -2                  # every permission but Global
        candperm cs4, cgp, t0
        li      a7, 2                   # yield
        ecall
        cgettag t0, cs4
        addi    a0, t0, 96              # 'a'
        li      a7, 1                   # send
        ecall
        li      a7, 0                   # end
        ecall

        .align  12
a_data: .dword  0
