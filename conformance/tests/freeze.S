// FROZEN stops recording. A breakpoint exception sets it where BPFRZ is set, a local counter overflow interrupt where
// LCOFIFRZ is, in the register of the mode that takes the trap; the trap itself isn't recorded then.
#include "ctr.h"

// s10, s8 and s9 are sctrstatus as found in M, HS and VS.
#define TRAP(m, vs, med, hed, ENTER, trap, row, reg, IS) \
        DELEGATE(med, hed); li s8, 0; li s9, 0; START(m, vs, 8f); ENTER(1f); \
1:      j 2f; \
2:      trap; \
8:      mv s4, reg; LIST; row; END_LIST; IS(s4); ENDCASE
#define GUEST_TRAP(m, vs, med, hed, ENTER, trap, row, reg, IS) \
        NEED(HAS_H); DELEGATE(med, hed); li s8, 0; li s9, 0; START(m, vs, 8f); ENTER(1f); \
1:      j 2f; \
2:      trap; \
8:      mv s4, reg; LIST; row; END_LIST; IS(s4); ENDCASE
// The local counter overflow interrupt is pended before the mode is entered.
#define OVERFLOW(m, vs, mid, hid, ENTER, row, reg, IS) \
        NEED(HAS_LCOFI); DELEGATE_INT(mid, hid); li t0, 1 << 13; csrw mie, t0; csrs mip, t0; li s8, 0; li s9, 0; \
        START(m, vs, 8f); ENTER(1f); \
1:      nop; ecall; \
8:      mv s4, reg; li t0, 1 << 13; csrc mip, t0; LIST; row; END_LIST; IS(s4); ENDCASE

TESTS(35000)
// covers: freeze-stops frozen-holds
CASE_ALL("FROZEN, written by software, stops recording, and clearing it starts it again")
        START_M(CTL_M)
        LIST
1:      j       2f
        ROW(1b, 2f, DIRJUMP)
2:      li      t0, FROZEN
        csrs    sctrstatus, t0
        j       3f
3:      jal     x1, 4f
4:      csrc    sctrstatus, t0
5:      j       6f
        ROW(5b, 6f, DIRJUMP)
6:      HALT
        END_LIST
        CHECK_CSR(sctrstatus, 2)
ENDCASE
// covers: freeze-stops
CASE_ALL("while FROZEN is set a return takes nothing away under return-stack emulation")
        START_M(CTL_M | CTL_RASEMU)
        LIST
1:      jal     x1, 2f
        ROW(1b, 2f, DIRCALL)
2:      li      t0, FROZEN
        csrs    sctrstatus, t0
        la      x5, 3f
        jalr    x0, 0(x5)
3:      la      x1, 4f
        jalr    x5, 0(x1)
4:      HALT
        END_LIST
ENDCASE
// covers: freeze-stays freeze-stops
CASE("traps and returns leave FROZEN, and aren't recorded under it")
        DELEGATE(1 << 3, 0)
        START(CTL_M | CTL_S | CTL_U, 0, 8f)
        li      t0, FROZEN
        csrs    sctrstatus, t0
        ENTER_U(1f)
1:      ecall
8:      mv      s4, s10
        LIST
        END_LIST
        CHECK_EQ(s4, FROZEN)
        START(CTL_M | CTL_S | CTL_U, 0, 8f)
        li      t0, FROZEN
        csrs    sctrstatus, t0
        ENTER_U(1f)
1:      ebreak
8:      mv      s4, s8
        mv      s5, s10
        LIST
        END_LIST
        CHECK_EQ(s4, FROZEN)
        CHECK_EQ(s5, FROZEN)
ENDCASE
// covers: freeze-writes registers-apart
CASE_ALL("while FROZEN is set the entries, WRPTR and the controls can be written")
        START_M(0)
        li      t0, FROZEN
        csrs    sctrstatus, t0
        li      t0, ENTRY
        csrw    siselect, t0
        la      t0, _start + 1
        csrw    sireg, t0
        la      t0, ctr_mtrap
        csrw    sireg2, t0
        li      t0, 9
        csrw    sireg3, t0
        csrsi   mctrctl, CTL_U
        csrr    s5, mctrctl
        csrsi   sctrstatus, 1
        csrr    s4, sctrstatus
        csrci   sctrstatus, 1
        LIST
        ROW(_start, ctr_mtrap, DIRCALL)
        END_LIST
        CHECK_EQ(s5, CTL_U)
        CHECK_EQ(s4, FROZEN | 1)
ENDCASE
// covers: freeze-breakpoint
CASE_OR("without BPFRZ EBREAK is an exception like others, in M", "without BPFRZ EBREAK is an exception like others, in S"); TRAP(CTL_U | CTL_M, 0, 0, 0, ENTER_U, ebreak, ROW(90b, 1b, TRAPRET); ROW(1b, 2b, DIRJUMP); ROW(2b, ctr_mtrap, EXCEPTION), s10, NOT_FROZEN)
CASE_OR("BPFRZ, from U into M", "BPFRZ, from U into S"); TRAP(CTL_U | CTL_M | CTL_BPFRZ, 0, 0, 0, ENTER_U, ebreak, ROW(90b, 1b, TRAPRET); ROW(1b, 2b, DIRJUMP), s10, IS_FROZEN)
CASE_OR("BPFRZ, from M into M", "BPFRZ, from S into S"); TRAP(CTL_M | CTL_BPFRZ, 0, 0, 0, ENTER_M, ebreak, ROW(90b, 1b, TRAPRET); ROW(1b, 2b, DIRJUMP), s10, IS_FROZEN)
// covers: freeze-breakpoint freeze-modes
CASE_OR("BPFRZ, from U into M, U enabled", "BPFRZ, from U into S, U enabled"); TRAP(CTL_U | CTL_BPFRZ, 0, 0, 0, ENTER_U, ebreak, ROW(1b, 2b, DIRJUMP), s10, IS_FROZEN)
// covers: freeze-breakpoint
CASE("BPFRZ, from U into S"); TRAP(CTL_U | CTL_S | CTL_BPFRZ, 0, 1 << 3, 0, ENTER_U, ebreak, ROW(1b, 2b, DIRJUMP), s8, IS_FROZEN)
CASE("without BPFRZ, from U into S"); TRAP(CTL_U | CTL_S, 0, 1 << 3, 0, ENTER_U, ebreak, ROW(1b, 2b, DIRJUMP); ROW(2b, ctr_strap, EXCEPTION), s8, NOT_FROZEN)
CASE("BPFRZ, from S into S"); TRAP(CTL_S | CTL_BPFRZ, 0, 1 << 3, 0, ENTER_S, ebreak, ROW(1b, 2b, DIRJUMP), s8, IS_FROZEN)
// covers: freeze-others
CASE_ALL("BPFRZ, another exception doesn't freeze"); TRAP(CTL_U | CTL_M | CTL_BPFRZ, 0, 0, 0, ENTER_U, ecall, ROW(90b, 1b, TRAPRET); ROW(1b, 2b, DIRJUMP); ROW(2b, ctr_mtrap, EXCEPTION), s10, NOT_FROZEN)
CASE_ALL("LCOFIFRZ is no BPFRZ"); TRAP(CTL_U | CTL_M | CTL_LCOFIFRZ, 0, 0, 0, ENTER_U, ebreak, ROW(90b, 1b, TRAPRET); ROW(1b, 2b, DIRJUMP); ROW(2b, ctr_mtrap, EXCEPTION), s10, NOT_FROZEN)
// covers: freeze-unfiltered
CASE_ALL("BPFRZ under return-stack emulation"); TRAP(CTL_U | CTL_M | CTL_BPFRZ | CTL_RASEMU, 0, 0, 0, ENTER_U, ebreak, NONE, s10, IS_FROZEN)
CASE_ALL("BPFRZ with EXCINH"); TRAP(CTL_U | CTL_M | CTL_BPFRZ | CTL_EXCINH, 0, 0, 0, ENTER_U, ebreak, ROW(90b, 1b, TRAPRET); ROW(1b, 2b, DIRJUMP), s10, IS_FROZEN)
CASE_ALL("BPFRZ, an external trap: nothing of it is recorded"); TRAP(CTL_U | CTL_BPFRZ | CTL_STE | CTL_MTE, 0, 0, 0, ENTER_U, ebreak, ROW(1b, 2b, DIRJUMP), s10, IS_FROZEN)
// covers: freeze-breakpoint guest-freezes
CASE_ALL("vsctrctl.BPFRZ, from VU into VS"); GUEST_TRAP(0, CTL_VU | CTL_VS | CTL_BPFRZ, 1 << 3, 1 << 3, ENTER_VU, ebreak, ROW(1b, 2b, DIRJUMP), s9, IS_FROZEN)
CASE_ALL("vsctrctl.BPFRZ, from VS into VS"); GUEST_TRAP(0, CTL_VS | CTL_BPFRZ, 1 << 3, 1 << 3, ENTER_VS, ebreak, ROW(1b, 2b, DIRJUMP), s9, IS_FROZEN)
CASE_OR("mctrctl.BPFRZ isn't that of VS", "sctrctl.BPFRZ isn't that of VS"); GUEST_TRAP(CTL_BPFRZ, CTL_VU | CTL_VS, 1 << 3, 1 << 3, ENTER_VU, ebreak, ROW(1b, 2b, DIRJUMP); ROW(2b, ctr_vstrap, EXCEPTION), s9, NOT_FROZEN)
CASE("mctrctl.BPFRZ, from VS into HS"); GUEST_TRAP(CTL_S | CTL_BPFRZ, CTL_VS, 1 << 3, 0, ENTER_VS, ebreak, ROW(1b, 2b, DIRJUMP), s8, IS_FROZEN)
CASE("vsctrctl.BPFRZ doesn't count from VS into HS"); GUEST_TRAP(CTL_S, CTL_VS | CTL_BPFRZ, 1 << 3, 0, ENTER_VS, ebreak, ROW(1b, 2b, DIRJUMP); ROW(2b, ctr_strap, EXCEPTION), s8, NOT_FROZEN)
CASE_OR("mctrctl.BPFRZ, from VU into M", "sctrctl.BPFRZ, from VU into HS"); GUEST_TRAP(CTL_M | CTL_BPFRZ, CTL_VU, 0, 0, ENTER_VU, ebreak, ROW(90b, 1b, TRAPRET); ROW(1b, 2b, DIRJUMP), s10, IS_FROZEN)
CASE_OR("vsctrctl.BPFRZ doesn't count from VU into M", "vsctrctl.BPFRZ doesn't count from VU into HS"); GUEST_TRAP(CTL_M, CTL_VU | CTL_BPFRZ, 0, 0, ENTER_VU, ebreak, ROW(90b, 1b, TRAPRET); ROW(1b, 2b, DIRJUMP); ROW(2b, ctr_mtrap, EXCEPTION), s10, NOT_FROZEN)
CASE_ALL("vsctrctl.BPFRZ, from VU into VS, neither enabled"); GUEST_TRAP(0, CTL_BPFRZ, 1 << 3, 1 << 3, ENTER_VU, ebreak, NONE, s9, IS_FROZEN)
CASE_ALL("vsctrctl.BPFRZ, from VU into VS under return-stack emulation"); GUEST_TRAP(0, CTL_VU | CTL_VS | CTL_BPFRZ | CTL_RASEMU, 1 << 3, 1 << 3, ENTER_VU, ebreak, NONE, s9, IS_FROZEN)
CASE_ALL("vsctrctl.BPFRZ, from VU into VS with EXCINH"); GUEST_TRAP(0, CTL_VU | CTL_VS | CTL_BPFRZ | CTL_EXCINH, 1 << 3, 1 << 3, ENTER_VU, ebreak, ROW(1b, 2b, DIRJUMP), s9, IS_FROZEN)
CASE_ALL("vsctrctl.BPFRZ, another exception into VS doesn't freeze"); GUEST_TRAP(0, CTL_VU | CTL_VS | CTL_BPFRZ, 1 << 8, 1 << 8, ENTER_VU, ecall, ROW(1b, 2b, DIRJUMP); ROW(2b, ctr_vstrap, EXCEPTION), s9, NOT_FROZEN)
// covers: freeze-breakpoint freeze-modes
CASE_OR("BPFRZ, from U into M, neither enabled", "BPFRZ, from U into S, neither enabled"); TRAP(CTL_BPFRZ, 0, 0, 0, ENTER_U, ebreak, NONE, s10, IS_FROZEN)
CASE("BPFRZ, from U into S, S enabled"); TRAP(CTL_S | CTL_BPFRZ, 0, 1 << 3, 0, ENTER_U, ebreak, NONE, s8, IS_FROZEN)
CASE("BPFRZ, from S into M, S enabled"); TRAP(CTL_S | CTL_BPFRZ, 0, 0, 0, ENTER_S, ebreak, ROW(1b, 2b, DIRJUMP), s10, IS_FROZEN)
// covers: freeze-others
CASE_ALL("BPFRZ, an illegal instruction doesn't freeze"); TRAP(CTL_U | CTL_M | CTL_BPFRZ, 0, 0, 0, ENTER_U, .word 0, ROW(90b, 1b, TRAPRET); ROW(1b, 2b, DIRJUMP); ROW(2b, ctr_mtrap, EXCEPTION), s10, NOT_FROZEN)
// covers: freeze-overflow
CASE_OR("LCOFIFRZ, from U into M", "LCOFIFRZ, from U into S"); OVERFLOW(CTL_U | CTL_M | CTL_LCOFIFRZ, 0, 0, 0, ENTER_U, ROW(90b, 1b, TRAPRET), s10, IS_FROZEN)
CASE_OR("without LCOFIFRZ, from U into M", "without LCOFIFRZ, from U into S"); OVERFLOW(CTL_U | CTL_M, 0, 0, 0, ENTER_U, ROW(90b, 1b, TRAPRET); ROW(1b, ctr_mtrap, INTERRUPT), s10, NOT_FROZEN)
CASE_ALL("BPFRZ is no LCOFIFRZ"); OVERFLOW(CTL_U | CTL_M | CTL_BPFRZ, 0, 0, 0, ENTER_U, ROW(90b, 1b, TRAPRET); ROW(1b, ctr_mtrap, INTERRUPT), s10, NOT_FROZEN)
CASE("LCOFIFRZ, from U into S"); OVERFLOW(CTL_U | CTL_S | CTL_LCOFIFRZ, 0, LCOFI, 0, ENTER_U, NONE, s8, IS_FROZEN)
// covers: freeze-overflow freeze-modes
CASE("LCOFIFRZ, from U into S, neither enabled"); OVERFLOW(CTL_LCOFIFRZ, 0, LCOFI, 0, ENTER_U, NONE, s8, IS_FROZEN)
// covers: freeze-unfiltered
CASE_ALL("LCOFIFRZ with INTRINH"); OVERFLOW(CTL_U | CTL_M | CTL_LCOFIFRZ | CTL_INTRINH, 0, 0, 0, ENTER_U, ROW(90b, 1b, TRAPRET), s10, IS_FROZEN)
CASE_ALL("LCOFIFRZ under return-stack emulation"); OVERFLOW(CTL_U | CTL_M | CTL_LCOFIFRZ | CTL_RASEMU, 0, 0, 0, ENTER_U, NONE, s10, IS_FROZEN)
CASE_ALL("LCOFIFRZ, an external trap: nothing of it is recorded"); OVERFLOW(CTL_U | CTL_LCOFIFRZ | CTL_STE | CTL_MTE, 0, 0, 0, ENTER_U, NONE, s10, IS_FROZEN)
// covers: freeze-others
CASE_ALL("LCOFIFRZ, another interrupt doesn't freeze")
        csrwi   mie, 2
        csrsi   mip, 2
        START(CTL_U | CTL_M | CTL_LCOFIFRZ, 0, 8f)
        ENTER_U(1f)
1:      nop
        ecall
8:      csrci   mip, 2
        mv      s4, s10
        LIST
        ROW(90b, 1b, TRAPRET)
        ROW(1b, ctr_mtrap, INTERRUPT)
        END_LIST
        NOT_FROZEN(s4)
ENDCASE
// covers: freeze-overflow guest-freezes
CASE_ALL("vsctrctl.LCOFIFRZ, from VU into VS")
        NEED(HAS_VLCOFI)
        DELEGATE_INT(LCOFI, LCOFI)
        li      t0, LCOFI
        csrw    mie, t0
        csrs    mip, t0
        li      s9, 0
        START(0, CTL_VU | CTL_VS | CTL_LCOFIFRZ, 8f)
        ENTER_VU(1f)
1:      nop
        ecall
8:      li      t0, LCOFI
        csrc    mip, t0
        mv      s4, s9
        LIST
        END_LIST
        IS_FROZEN(s4)
ENDCASE
CASE_OR("mctrctl.LCOFIFRZ isn't that of VS", "sctrctl.LCOFIFRZ isn't that of VS")
        NEED(HAS_VLCOFI)
        DELEGATE_INT(LCOFI, LCOFI)
        li      t0, LCOFI
        csrw    mie, t0
        csrs    mip, t0
        li      s9, 0
        START(CTL_LCOFIFRZ, CTL_VU | CTL_VS, 8f)
        ENTER_VU(1f)
1:      nop
        ecall
8:      li      t0, LCOFI
        csrc    mip, t0
        mv      s4, s9
        LIST
        ROW(1b, ctr_vstrap, INTERRUPT)
        END_LIST
        NOT_FROZEN(s4)
ENDCASE
CASE("mctrctl.LCOFIFRZ, from VU into HS, and not vsctrctl.LCOFIFRZ")
        NEED(HAS_H | HAS_LCOFI)
        DELEGATE_INT(LCOFI, 0)
        li      t0, LCOFI
        csrw    mie, t0
        csrs    mip, t0
        li      s8, 0
        START(CTL_S | CTL_LCOFIFRZ, CTL_VU, 8f)
        ENTER_VU(1f)
1:      nop
        ecall
8:      mv      s4, s8
        LIST
        END_LIST
        IS_FROZEN(s4)
        li      t0, LCOFI
        csrs    mip, t0
        li      s8, 0
        START(CTL_S, CTL_VU | CTL_LCOFIFRZ, 8f)
        ENTER_VU(1f)
1:      nop
        ecall
8:      li      t0, LCOFI
        csrc    mip, t0
        mv      s4, s8
        LIST
        ROW(1b, ctr_strap, INTERRUPT)
        END_LIST
        NOT_FROZEN(s4)
ENDCASE
// covers: freeze-others
CASE_ALL("a pending overflow that isn't taken doesn't freeze")
        NEED(HAS_LCOFI)
        START_M(CTL_M | CTL_LCOFIFRZ)
        li      t0, LCOFI
        csrs    mip, t0
        LIST
1:      j       2f
        ROW(1b, 2f, DIRJUMP)
2:      csrc    mip, t0
        HALT
        END_LIST
        CHECK_CSR(sctrstatus, 1)
ENDCASE
// covers: freeze-stops freeze-stays
CASE_ALL("after a freeze nothing is recorded in any mode, until software clears FROZEN")
        START(CTL_M | CTL_U | CTL_BPFRZ, 0, 8f)
        LIST
        ENTER_U(1f)
        ROW(90b, 1f, TRAPRET)
1:      ebreak
8:      csrsi   mctrctl, CTL_M | CTL_U
        AFTER(7f)
        j       2f
2:      ENTER_U(3f)
3:      j       4f
4:      ecall
7:      mv      s4, s10
        li      t0, FROZEN
        csrc    sctrstatus, t0
        csrsi   mctrctl, CTL_M
5:      j       6f
        ROW(5b, 6f, DIRJUMP)
6:      HALT
        END_LIST
        IS_FROZEN(s4)
ENDCASE
// covers: freeze-stops
CASE("FROZEN set in S stops recording in S, in U and in M")
        DELEGATE(1 << ECALL_U, 0)
        START(CTL_M | CTL_S | CTL_U, 0, 8f)
        ENTER_S(1f)
1:      li      t0, FROZEN
        csrs    sctrstatus, t0
        j       2f
2:      SRET_TO_U(3f)
3:      jal     x1, 4f
4:      .word   0
8:      LIST
        ROW(90b, 1b, TRAPRET)
        END_LIST
ENDCASE
CASE_ALL("FROZEN set in VS stops recording there, and cleared there starts it")
        NEED(HAS_H)
        START(0, CTL_VS, 8f)
        ENTER_VS(1f)
1:      li      t0, FROZEN
        csrs    sctrstatus, t0
        j       2f
2:      csrc    sctrstatus, t0
3:      j       4f
4:      ecall
8:      LIST
        ROW(3b, 4b, DIRJUMP)
        END_LIST
ENDCASE
ENDTESTS
