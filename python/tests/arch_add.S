// A test of our own in the form of riscv-arch-test: ADD and DIV of some numbers.
#include "model_test.h"
#include "arch_test.h"
RVTEST_ISA("RV64IM")

RVTEST_CODE_BEGIN
RVMODEL_BOOT
RVTEST_SIGBASE(x1, signature_x1_1)
TEST_RR_OP(add, x10, x11, x12, 0x7, 0x3, 0x4, x1, 0, x2)
TEST_RR_OP(add, x10, x11, x12, 0xffffffffffffffff, 0x0, -0x1, x1, 8, x2)
TEST_RR_OP(add, x13, x14, x15, 0xffffffff80000000, 0x0, -0x80000000, x1, 16, x2)
TEST_RR_OP(divw, x16, x17, x18, 0x2, 0x7, 0x3, x1, 24, x2)
RVTEST_CODE_END
RVMODEL_HALT

RVTEST_DATA_BEGIN
RVTEST_DATA_END

RVMODEL_DATA_BEGIN
signature_x1_1:
    .fill 4, 8, 0xdeadbeef
    .fill 2, 4, 0xdeadbeef
RVMODEL_DATA_END
