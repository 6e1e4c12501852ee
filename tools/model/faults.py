"""What tells a fault: the numbers of mcause, and those of the causes that a capability's fault has in mtval."""

# mcause of exceptions, and of the timer's interrupt and the external one.
JUMP_MISALIGNED, FETCH_ACCESS, ILLEGAL, BREAKPOINT, LOAD_MISALIGNED, LOAD_ACCESS, STORE_MISALIGNED, STORE_ACCESS = range(8)
ECALL = 11
CHERI = 28
INTERRUPT = 1 << 63
TIMER_INTERRUPT = INTERRUPT | 7
EXTERNAL_INTERRUPT = INTERRUPT | 11
# The causes in mtval: bounds, tag, seal, type, want of a permission, and want of Access_System_Registers.
LENGTH, TAG, SEAL, TYPE = 0x01, 0x02, 0x03, 0x04
EXECUTES, LOADS, STORES, STORES_CAPABILITY, STORES_LOCAL, ACCESS, INVOKES = 0x11, 0x12, 0x13, 0x15, 0x16, 0x18, 0x19
# Special registers count from here in mtval: PCC's number and DDC's.
FIRST_SPECIAL = 32
PCC, DDC = 32, 33
