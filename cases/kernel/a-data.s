# A's data: a number, of which these attacks make no use.

        .align  12
a_data: .dword  0
