# A returns from a trap that there was not. That asks for Access_System_Registers: cause 18.

        .align  12
a_code: j       a_start
        .word   0                       # no door

a_start: mret
