/* The macros of riscv-arch-test for this machine: it halts by a store of 0, and its signature stands between two labels. */
#ifndef CHERISIM_MODEL_TEST_H
#define CHERISIM_MODEL_TEST_H

#define RVMODEL_BOOT

#define RVMODEL_HALT                                            \
    li t0, 0x100000;                                            \
    sd zero, 0(t0);                                             \
halted: j halted;

#define RVMODEL_DATA_BEGIN                                      \
    .align 4;                                                   \
    .global begin_signature; begin_signature:

#define RVMODEL_DATA_END                                        \
    .align 4;                                                   \
    .global end_signature; end_signature:

/* nothing is shown or compared during a test */
#define RVMODEL_IO_INIT
#define RVMODEL_IO_WRITE_STR(_R, _STR)
#define RVMODEL_IO_CHECK()
#define RVMODEL_IO_ASSERT_GPR_EQ(_S, _R, _I)
#define RVMODEL_IO_ASSERT_SFPR_EQ(_F, _R, _I)
#define RVMODEL_IO_ASSERT_DFPR_EQ(_D, _R, _I)

/* there is no software interrupt; the timer's is taken back by a time that doesn't come */
#define RVMODEL_SET_MSW_INT
#define RVMODEL_CLEAR_MSW_INT
#define RVMODEL_CLEAR_MEXT_INT
#define RVMODEL_CLEAR_MTIMER_INT                                \
    li t0, 0x2004000;                                           \
    li t1, -1;                                                  \
    sd t1, 0(t0);

#endif
