# A loops for ever: only the timer takes the processor from it.

        .align  12
a_code: j       a_start
        .word   0                       # no door

a_start: j      a_start

        .align  12
a_data: .dword  0
