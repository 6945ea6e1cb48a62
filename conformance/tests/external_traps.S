// An external trap, from an enabled mode into one that isn't, is recorded exactly where the trap-enable bits of the
// target and of each mode between ask for it; its target is 0, and no filter bit leaves it out.
#include "ctr.h"

// Every set of mctrctl.STE, mctrctl.MTE and (for guests) vsctrctl.STE; it is recorded where all of `needs` are set.
// needs: 1 STE, 2 MTE, 4 vsctrctl.STE; MTE is out of the reach of S. The trap is the instruction at 1.
#define SETS(sets, m, vs, needs, ENTER, trap) \
        li s5, 0; \
4:      andi t0, s5, 7 & ~EXTERNAL_BITS; bnez t0, 5f; andi t0, s5, 1; slli t0, t0, 8; andi t1, s5, 2; slli t1, t1, 8; or t0, t0, t1; li a0, m; or a0, a0, t0; \
        andi t1, s5, 4; slli t1, t1, 6; li a1, vs; or a1, a1, t1; \
        START_REGS(8f); ENTER(1f); \
1:      trap; \
8:      LIST; ROW(1b, 0, EXCEPTION); \
        andi t0, s5, (needs) & EXTERNAL_BITS; addi t0, t0, -((needs) & EXTERNAL_BITS); snez t0, t0; neg s4, t0; \
        CLOSE_LIST; la a0, 97b; mv a1, s4; call ctr_check_list; \
5:      addi s5, s5, 1; li t0, sets; bltu s5, t0, 4b

TESTS(40000)
// covers: external-bits external-target trap-out
CASE("U to S needs STE")
        NEED_CTL(CTL_STE | CTL_MTE, 0)
        DELEGATE(1 << 8, 0)
        SETS(4, CTL_U, 0, 1, ENTER_U, ecall)
ENDCASE
CASE_OR("U to M needs MTE and STE", "U to S needs STE")
        NEED_CTL(CTL_STE | CTL_MTE, 0)
        SETS(4, CTL_U, 0, 3, ENTER_U, ecall)
ENDCASE
CASE("U to M with S enabled needs MTE and STE")
        NEED_CTL(CTL_STE | CTL_MTE, 0)
        SETS(4, CTL_U | CTL_S, 0, 3, ENTER_U, ecall)
ENDCASE
CASE("S to M needs MTE")
        NEED_CTL(CTL_STE | CTL_MTE, 0)
        SETS(4, CTL_S, 0, 2, ENTER_S, ecall)
ENDCASE
CASE_ALL("VU to VS needs vsctrctl.STE")
        NEED(HAS_H)
        NEED_CTL(CTL_STE | CTL_MTE, CTL_STE)
        DELEGATE(1 << 8, 1 << 8)
        SETS(8, 0, CTL_VU, 4, ENTER_VU, ecall)
ENDCASE
CASE("VU to HS needs STE and vsctrctl.STE")
        NEED(HAS_H)
        NEED_CTL(CTL_STE | CTL_MTE, CTL_STE)
        DELEGATE(1 << 8, 0)
        SETS(8, 0, CTL_VU, 5, ENTER_VU, ecall)
ENDCASE
CASE_OR("VU to M needs MTE, STE and vsctrctl.STE", "VU to HS needs STE and vsctrctl.STE")
        NEED(HAS_H)
        NEED_CTL(CTL_STE | CTL_MTE, CTL_STE)
        SETS(8, 0, CTL_VU, 7, ENTER_VU, ecall)
ENDCASE
CASE("VS to HS needs STE")
        NEED(HAS_H)
        NEED_CTL(CTL_STE | CTL_MTE, CTL_STE)
        DELEGATE(1 << 10, 0)
        SETS(8, 0, CTL_VS, 1, ENTER_VS, ecall)
ENDCASE
CASE_OR("VS to M needs MTE and STE", "VS to HS needs STE")
        NEED(HAS_H)
        NEED_CTL(CTL_STE | CTL_MTE, CTL_STE)
        SETS(8, 0, CTL_VS, 3, ENTER_VS, ecall)
ENDCASE
// covers: external-filters
CASE_ALL("EXCINH doesn't leave an external exception out")
        NEED_CTL(CTL_STE | CTL_MTE | CTL_EXCINH, 0)
        SETS(4, CTL_U | CTL_EXCINH, 0, 3, ENTER_U, ecall)
ENDCASE
CASE("vsctrctl.EXCINH doesn't leave an external exception out")
        NEED(HAS_H)
        NEED_CTL(CTL_STE | CTL_MTE, CTL_STE | CTL_EXCINH)
        DELEGATE(1 << 8, 0)
        SETS(8, 0, CTL_VU | CTL_EXCINH, 5, ENTER_VU, ecall)
ENDCASE
CASE_ALL("an external interrupt, which INTRINH doesn't leave out")
        NEED_CTL(CTL_STE | CTL_MTE | CTL_INTRINH, 0)
        csrwi   mie, 2                  // the supervisor software interrupt, taken in M
        csrsi   mip, 2
        START(CTL_U | CTL_STE | CTL_MTE | CTL_INTRINH, 0, 8f)
        ENTER_U(1f)
1:      nop
        ecall
8:      csrci   mip, 2
        LIST
        ROW(1b, 0, INTERRUPT)
        END_LIST
ENDCASE
// covers: external-together
CASE("STE is there where MTE is, and in vsctrctl too")
        la      t0, begin_signature
        ld      t1, R_MCTRCTL(t0)
        srli    t2, t1, 8
        srli    t3, t1, 9
        andi    t2, t2, 1
        andi    t3, t3, 1
        CHECK_REGS(t2, t3)
        NEED(HAS_H)
        la      t0, begin_signature
        ld      t1, R_MCTRCTL(t0)
        ld      t3, R_VSCTRCTL(t0)
        andi    t2, t1, CTL_STE
        andi    t3, t3, CTL_STE
        CHECK_REGS(t2, t3)
ENDCASE
// covers: external-bits external-target
CASE("external interrupts into S and into HS")
        NEED_CTL(CTL_STE | CTL_MTE, 0)
        DELEGATE_INT(SSI, 0)
        csrwi   mie, SSI
        csrsi   mip, SSI
        START(CTL_U | CTL_STE, 0, 8f)
        ENTER_U(1f)
1:      nop
        ecall
8:      LIST
        ROW(1b, 0, INTERRUPT)
        END_LIST
        csrsi   mip, SSI
        START(CTL_U | CTL_MTE, 0, 8f)
        ENTER_U(1f)
1:      nop
        ecall
8:      LIST
        END_LIST
        NEED(HAS_H)
        csrsi   mip, SSI
        START(CTL_STE, CTL_VS, 8f)
        ENTER_VS(1f)
1:      nop
        ecall
8:      csrci   mip, SSI
        LIST
        ROW(1b, 0, INTERRUPT)
        END_LIST
ENDCASE
// covers: external-bits return-out
CASE("the bits don't count for returns, nor for a trap from a mode that isn't enabled")
        NEED_CTL(CTL_STE | CTL_MTE, 0)
        START(CTL_STE | CTL_MTE, 0, 8f)
        ENTER_U(1f)
1:      ecall
8:      LIST
        END_LIST
        START(CTL_S | CTL_STE | CTL_MTE, 0, 8f)
        ENTER_U(1f)
1:      ecall
8:      LIST
        END_LIST
        DELEGATE(1 << ECALL_U, 0)
        START(CTL_S | CTL_STE | CTL_MTE, 0, 8f)
        ENTER_U(1f)
1:      ecall
8:      LIST
        ROW(0, ctr_strap, EXCEPTION)    // and S to M, the ECALL of the handler, comes with recording off
        END_LIST
ENDCASE
ENDTESTS
