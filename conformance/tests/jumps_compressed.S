// The compressed jumps and branches have the types of what they stand for; addresses of two bytes' grain are kept.
// Written as half words, so that no extension is asked of the assembler.
#include "ctr.h"

#define C_NOP        .half 0x0001
#define C_J_4        .half 0xa011    /* c.j .+4 */
#define C_JR(r)      .half 0x8002 | (r) << 7
#define C_JALR(r)    .half 0x9002 | (r) << 7
#define C_BEQZ_S0_4  .half 0xc011    /* c.beqz x8, .+4 */
#define C_BNEZ_S0_4  .half 0xe011

TESTS(15000)
// covers: type-compressed
CASE_ALL("C.J is a direct jump")
        NEED(HAS_C)
        START_M(CTL_M)
        LIST
1:      C_J_4
        C_NOP
2:      C_NOP
3:      C_J_4                           // at an odd half word
        C_NOP
4:      C_NOP
        ROW(1b, 2b, DIRJUMP)
        ROW(3b, 4b, DIRJUMP)
        HALT
        END_LIST
ENDCASE
CASE_ALL("C.JR is an indirect jump, or a return through x1 or x5")
        NEED(HAS_C)
        START_M(CTL_M)
        LIST
        la      x6, 2f
1:      C_JR(6)
        C_NOP
2:      la      x1, 4f
3:      C_JR(1)
        C_NOP
4:      la      x5, 6f
5:      C_JR(5)
        C_NOP
6:      ROW(1b, 2b, INDJUMP)
        ROW(3b, 4b, RETURN)
        ROW(5b, 6b, RETURN)
        HALT
        END_LIST
ENDCASE
CASE_ALL("C.JALR is an indirect call, or a swap through x5")
        NEED(HAS_C)
        START_M(CTL_M)
        LIST
        la      x6, 2f
1:      C_JALR(6)
        C_NOP
2:      la      x1, 4f
3:      C_JALR(1)
        C_NOP
4:      la      x5, 6f
5:      C_JALR(5)
        C_NOP
6:      ROW(1b, 2b, INDCALL)
        ROW(3b, 4b, INDCALL)
        ROW(5b, 6b, SWAP)
        HALT
        END_LIST
ENDCASE
CASE_ALL("C.BEQZ and C.BNEZ, taken and not")
        NEED(HAS_C)
        START_M(CTL_M | CTL_NTBREN)
        LIST
        li      x8, 0
1:      C_BEQZ_S0_4
        C_NOP
2:      C_BNEZ_S0_4
3:      C_NOP
        ROW(1b, 2b, TAKEN)
        ROW(2b, 3b, NOTTAKEN)
        HALT
        END_LIST
ENDCASE
// covers: freeze-breakpoint
CASE_ALL("C.EBREAK freezes as EBREAK does")
        NEED(HAS_C)
        START(CTL_M | CTL_U | CTL_BPFRZ, 0, 8f)
        ENTER_U(1f)
1:      .half   0x9002                  // C.EBREAK
        C_NOP
8:      srli    s4, s10, 31
        LIST
        ROW(90b, 1b, TRAPRET)
        END_LIST
        CHECK_EQ(s4, 1)
ENDCASE
ENDTESTS
