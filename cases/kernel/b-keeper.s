# B's door: it keeps what the caller lends it in ca6, and stores that capability in its own data.

b_door: csc     ca6, 16(ct6)
        cinvoke ca2, ca3

        .align  12
b_data: .dword  0
