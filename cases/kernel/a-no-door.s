# A comes in by the door of a B that has none: a word that is no instruction, mcause 2. A runs, so it is A that ends.

        .align  12
a_code: j       a_start
        .word   0                       # no door

a_start: cinvoke cs0, cs1
