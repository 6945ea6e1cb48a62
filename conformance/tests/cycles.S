// The cycle count of a record, by bounds: how many cycles an instruction takes is the implementation's. None of these
// cases fails an implementation: what they find is marked TODO.
// advisory
#include "ctr.h"

// The cycles that a data word tells: the mantissa is bits 27:16, the exponent bits 31:28.
#define CYCLES(reg) \
        srliw t0, reg, 28; srliw t1, reg, 16; slli t1, t1, 52; srli t1, t1, 52; beqz t0, 97f; \
        li t2, 1 << 12; add t1, t1, t2; addi t0, t0, -1; sll t1, t1, t0; 97: mv reg, t1
#define DATA_OF(number, reg) li t0, ENTRY + number; csrw siselect, t0; csrr reg, sireg3

TESTS(15000)
// covers: cycles-clear
CASE_ALL("the first record after SCTRCLR has no count")
        NEED(HAS_CYCLES)
        START_M(CTL_M)
1:      j       2f
2:      j       3f
3:      SCTRCLR
4:      j       5f
5:      HALT
        DATA_OF(0, s4)
        srli    s4, s4, 15
        andi    s4, s4, 1
        CHECK_EQ(s4, 0)
ENDCASE
// covers: cycles-count
CASE_ALL("later records have one, and a thousand instructions take more cycles than a few")
        NEED(HAS_CYCLES)
        START_M(CTL_M)
1:      j       2f
2:      j       3f
3:
        .rept   1000
        addi    x6, x6, 1
        .endr
4:      j       5f
5:      HALT
        DATA_OF(1, s4)
        DATA_OF(0, s5)
        srli    t0, s4, 15
        andi    t0, t0, 1
        CHECK_EQ(t0, 1)
        srli    t0, s5, 15
        andi    t0, t0, 1
        CHECK_EQ(t0, 1)
        CYCLES(s4)
        CYCLES(s5)
        sltu    t0, s4, s5
        CHECK_EQ(t0, 1)
ENDCASE
ENDTESTS
