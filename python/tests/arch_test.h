/* What a test in the suite's form takes of the suite's own headers, for a test of our own: the suite's are not here. */
#define RVTEST_ISA(_STR)
#define RVTEST_CODE_BEGIN                                       \
    .section .text.init;                                        \
    .globl rvtest_entry_point;                                  \
rvtest_entry_point:
#define RVTEST_CODE_END
#define RVTEST_DATA_BEGIN .data; .align 4;
#define RVTEST_DATA_END
#define RVTEST_SIGBASE(_R, _TAG) la _R, _TAG;
/* an instruction of three registers over two numbers, whose value goes to the signature */
#define TEST_RR_OP(_INST, _RD, _RS1, _RS2, _CORRECT, _VAL1, _VAL2, _BASE, _OFFSET, _TEMP) \
    li _RS1, _VAL1;                                             \
    li _RS2, _VAL2;                                             \
    _INST _RD, _RS1, _RS2;                                      \
    sd _RD, _OFFSET(_BASE);
