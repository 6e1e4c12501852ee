# A's door, after a call for which A lent B some of its data: it sends what stands there. ct6 is A's data.

a_door: clb     a0, 0(ct6)
        li      a7, 1                   # send
        ecall
        li      a7, 0                   # end
        ecall

        .align  12
a_data: .dword  0
