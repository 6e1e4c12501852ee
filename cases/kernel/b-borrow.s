# B's door: it stores a byte through what the caller lends it in ca6.

b_door: li      t0, 76                  # 'L'
        csb     t0, 0(ca6)
        cmove   ct0, cnull
        cinvoke ca2, ca3

        .align  12
b_data: .dword  0
