# The end of an attack: A sends x, only if it was allowed, and ends.
        li      a7, 1                   # send
        li      a0, 120                 # 'x'
        ecall
        li      a7, 0                   # end
        ecall
