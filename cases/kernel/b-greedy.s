# B's door: it stores after what the caller lends it in ca6, 8 bytes: cause 1, length. The caller runs, so it is A that ends.

b_door: csb     zero, 8(ca6)
        cinvoke ca2, ca3

        .align  12
b_data: .dword  0
