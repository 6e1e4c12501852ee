# A invokes B's code with its own data: types 2 and 1, cause 4, type.

        .align  12
a_code: j       a_start
        .word   0                       # no door

a_start: cinvoke cs0, cs3
