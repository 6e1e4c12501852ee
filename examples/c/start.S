# The start of a C program: a stack, main, and the halt register with what main returns.
#
# RAM is all zeros after the program's bytes, so nothing has to be cleared for variables that begin as 0.

        .section .text.start
        .globl  _start
_start: la      sp, stack_top           # the end of RAM, from the linker script
        call    main
        li      t0, 0x100000            # the halt register: a store halts the machine with the stored number
        sd      a0, 0(t0)
never:  j       never                   # not reached
