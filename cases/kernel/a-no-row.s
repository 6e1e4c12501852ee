# A runs into a word that is no instruction: mcause 2, which is no CHERI fault.

        .align  12
a_code: j       a_start
        .word   0                       # no door

a_start: .word  0xffffffff
