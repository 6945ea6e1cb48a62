// An interrupt is recorded as type 2, with the address at which it came and that of its handler.
#include "ctr.h"

// The supervisor software interrupt, pended before the mode is entered; taken in M, or in HS where it is delegated.
#define INTERRUPT_IN(controls, mid, ENTER, rows) \
        DELEGATE_INT(mid, 0); csrwi mie, 2; csrsi mip, 2; csrsi mstatus, STATUS_SIE & ~STATUS_HOME_IE; \
        START(controls, 0, 8f); ENTER(1f); \
1:      nop; ecall; \
8:      csrci mip, 2; csrci mstatus, STATUS_SIE; LIST; rows; END_LIST; ENDCASE

TESTS(25000)
// covers: trap-whole type-interrupt trap-source
CASE_OR("U to M", "U to S"); INTERRUPT_IN(CTL_U | CTL_M, 0, ENTER_U, ROW(90b, 1b, TRAPRET); ROW(1b, ctr_mtrap, INTERRUPT))
// covers: trap-into trap-out
CASE_OR("U to M, M enabled: without source", "U to S, S enabled: without source"); INTERRUPT_IN(CTL_M, 0, ENTER_U, ROW(90b, 0, TRAPRET); ROW(0, ctr_mtrap, INTERRUPT))
CASE_OR("U to M, U enabled: nothing", "U to S, U enabled: nothing"); INTERRUPT_IN(CTL_U, 0, ENTER_U, NONE)
// covers: trap-whole type-interrupt
CASE("S to M"); INTERRUPT_IN(CTL_S | CTL_M, 0, ENTER_S, ROW(90b, 1b, TRAPRET); ROW(1b, ctr_mtrap, INTERRUPT))
CASE("U to S"); INTERRUPT_IN(CTL_U | CTL_S, 2, ENTER_U, ROW(1b, ctr_strap, INTERRUPT))
// covers: trap-into trap-out
CASE("U to S, S enabled: without source"); INTERRUPT_IN(CTL_S, 2, ENTER_U, ROW(0, ctr_strap, INTERRUPT))
CASE("U to S, U enabled: nothing"); INTERRUPT_IN(CTL_U, 2, ENTER_U, NONE)
// covers: trap-whole
CASE("within S"); INTERRUPT_IN(CTL_S, 2, ENTER_S, ROW(1b, ctr_strap, INTERRUPT))
// covers: filter-traps
CASE_ALL("INTRINH leaves interrupts out"); INTERRUPT_IN(CTL_U | CTL_M | CTL_INTRINH, 0, ENTER_U, ROW(90b, 1b, TRAPRET))
CASE_ALL("EXCINH leaves interrupts in"); INTERRUPT_IN(CTL_U | CTL_M | CTL_EXCINH, 0, ENTER_U, ROW(90b, 1b, TRAPRET); ROW(1b, ctr_mtrap, INTERRUPT))
CASE_ALL("INTRINH leaves interrupts out of a mode that isn't enabled too"); INTERRUPT_IN(CTL_M | CTL_INTRINH, 0, ENTER_U, ROW(90b, 0, TRAPRET))
// covers: trap-whole trap-source
CASE_OR("within M", "within S")
        csrwi   mie, 2
        START(CTL_M, 0, 8f)
        csrsi   mstatus, STATUS_HOME_IE
        csrsi   mip, 2                  // comes before the next instruction
1:      nop
        HALT
8:      csrci   mip, 2
        csrci   mstatus, STATUS_HOME_IE
        LIST
        ROW(1b, ctr_mtrap, INTERRUPT)
        END_LIST
ENDCASE
// covers: trap-target
CASE("vectored: the target is the handler's own address")
        la      t0, vectors
        addi    t1, t0, 1
        csrw    stvec, t1
        csrr    t2, stvec
        bne     t1, t2, 7f
        DELEGATE_INT(2, 0)
        csrwi   mie, 2
        csrsi   mip, 2
        START(CTL_U | CTL_S, 0, 8f)
        ENTER_U(1f)
1:      nop
        ecall
7:      li      a0, SKIP_CSR
        li      a1, 0x105
        j       ctr_skip
        .balign 256
vectors:
        .word   0
        csrci   sctrctl, 3              // the supervisor software interrupt, cause 1
        li      t0, FROZEN
        csrs    sctrstatus, t0
        ecall
8:      csrci   mip, 2
        LIST
        ROW(1b, vectors + 4, INTERRUPT)
        END_LIST
ENDCASE
// covers: trap-whole guest-enables
CASE_ALL("VU to VS")
        NEED(HAS_H)
        DELEGATE_INT(0, 4)
        li      t0, 4
        csrw    guest_ie, t0
        csrw    hvip, t0
        START(0, CTL_VU | CTL_VS, 8f)
        ENTER_VU(1f)
1:      nop
        ecall
8:      csrw    hvip, x0
        LIST
        ROW(1b, ctr_vstrap, INTERRUPT)
        END_LIST
ENDCASE
// covers: guest-filters filter-traps
CASE_ALL("VU to VS, vsctrctl.INTRINH: nothing")
        NEED(HAS_H)
        DELEGATE_INT(0, 4)
        li      t0, 4
        csrw    guest_ie, t0
        csrw    hvip, t0
        START(0, CTL_VU | CTL_VS | CTL_INTRINH, 8f)
        ENTER_VU(1f)
1:      nop
        ecall
8:      csrw    hvip, x0
        LIST
        END_LIST
        CHECK_CSR(mcause, 10)           // it was taken in VS
ENDCASE
CASE("U to S, INTRINH: nothing")
        DELEGATE_INT(2, 0)
        csrwi   mie, 2
        csrsi   mip, 2
        START(CTL_U | CTL_S | CTL_INTRINH, 0, 8f)
        ENTER_U(1f)
1:      nop
        ecall
8:      csrci   mip, 2
        LIST
        END_LIST
        CHECK_CSR(mcause, 9)
ENDCASE
CASE("VS to HS, by vsctrctl.INTRINH alone")
        NEED(HAS_H)
        DELEGATE_INT(2, 0)
        csrwi   mie, 2
        csrsi   mip, 2
        START(CTL_S | CTL_INTRINH, CTL_VS, 8f)
        ENTER_VS(1f)
1:      nop
        ecall
8:      csrci   mip, 2
        LIST
        ROW(1b, ctr_strap, INTERRUPT)
        END_LIST
        csrsi   mip, 2
        START(CTL_S, CTL_VS | CTL_INTRINH, 8f)
        ENTER_VS(1f)
1:      nop
        ecall
8:      csrci   mip, 2
        LIST
        END_LIST
ENDCASE
// covers: guest-filters filter-traps
CASE_OR("VU to VS, mctrctl.INTRINH doesn't count", "VU to VS, sctrctl.INTRINH doesn't count")
        NEED(HAS_H)
        DELEGATE_INT(0, VSSI)
        li      t0, VSSI
        csrw    guest_ie, t0
        csrw    hvip, t0
        START(CTL_INTRINH, CTL_VU | CTL_VS, 8f)
        ENTER_VU(1f)
1:      nop
        ecall
8:      csrw    hvip, x0
        LIST
        ROW(1b, ctr_vstrap, INTERRUPT)
        END_LIST
ENDCASE
// covers: trap-into trap-out guest-enables
CASE_ALL("VU to VS, VS enabled: without source; VU enabled: nothing")
        NEED(HAS_H)
        DELEGATE_INT(0, VSSI)
        li      t0, VSSI
        csrw    guest_ie, t0
        csrw    hvip, t0
        START(0, CTL_VS, 8f)
        ENTER_VU(1f)
1:      nop
        ecall
8:      LIST
        ROW(0, ctr_vstrap, INTERRUPT)
        END_LIST
        csrw    hvip, x0
        li      t0, VSSI
        csrw    hvip, t0
        START(0, CTL_VU, 8f)
        ENTER_VU(1f)
1:      nop
        ecall
8:      csrw    hvip, x0
        LIST
        END_LIST
        CHECK_CSR(mcause, ECALL_VS)
ENDCASE
// covers: trap-whole guest-enables
CASE_ALL("within VS")
        NEED(HAS_H)
        DELEGATE_INT(0, VSSI)
        li      t0, VSSI
        csrw    guest_ie, t0
        csrw    hvip, t0
        li      t0, STATUS_SIE
        csrw    vsstatus, t0
        START(0, CTL_VS, 8f)
        ENTER_VS(1f)
1:      nop
        ecall
8:      csrw    hvip, x0
        LIST
        ROW(1b, ctr_vstrap, INTERRUPT)
        END_LIST
ENDCASE
// covers: trap-whole type-interrupt
CASE("each interrupt that software can make pending, U to M and U to S")
        li      s5, 0                   // how many there were
        li      s4, SSI
1:      csrw    mip, x0
        csrs    mip, s4
        csrr    t0, mip
        and     t0, t0, s4
        beqz    t0, 6f
        csrw    mie, s4
        csrr    t0, mie
        beqz    t0, 6f
        csrw    mideleg, x0
        START(CTL_U | CTL_M, 0, 8f)
        ENTER_U(2f)
2:      nop
        ecall
8:      LIST
        ROW(90b, 2b, TRAPRET)
        ROW(2b, ctr_mtrap, INTERRUPT)
        END_LIST
        csrs    mip, s4
        csrw    mideleg, s4
        csrr    t0, mideleg
        and     t0, t0, s4
        beqz    t0, 6f
        START(CTL_U | CTL_S, 0, 8f)
        ENTER_U(3f)
3:      nop
        ecall
8:      LIST
        ROW(3b, ctr_strap, INTERRUPT)
        END_LIST
        addi    s5, s5, 1
6:      csrc    mip, s4
        csrw    mie, x0
        li      t0, SSI
        li      t1, STI
        beq     s4, t0, 7f
        li      t0, SEI
        beq     s4, t1, 5f
        j       4f
7:      mv      s4, t1
        j       1b
5:      mv      s4, t0
        j       1b
4:      csrw    mideleg, x0
ENDCASE
// covers: trap-whole guest-enables
CASE("the timer and the external interrupt of VS, VU to VS and VU to HS")
        NEED(HAS_H)
        li      s4, VSTI
1:      csrw    guest_ie, s4
        csrw    hideleg, s4
        csrw    hvip, s4
        START(0, CTL_VU | CTL_VS, 8f)
        ENTER_VU(2f)
2:      nop
        ecall
8:      LIST
        ROW(2b, ctr_vstrap, INTERRUPT)
        END_LIST
        csrw    hideleg, x0
        csrw    hvip, x0
        csrw    hvip, s4
        START(CTL_S, CTL_VU, 8f)
        ENTER_VU(3f)
3:      nop
        ecall
8:      csrw    hvip, x0
        LIST
        ROW(3b, ctr_strap, INTERRUPT)
        END_LIST
        li      t0, VSEI
        li      t1, VSTI
        bne     s4, t1, 4f
        mv      s4, t0
        j       1b
4:      csrw    hideleg, x0
ENDCASE
// covers: recorded-alone
CASE_ALL("an interrupt that is pending and not taken leaves no record")
        csrwi   mie, SSI
        START_M(CTL_M)                  // interrupts are off here
        csrsi   mip, SSI
        LIST
1:      j       2f
        ROW(1b, 2f, DIRJUMP)
2:      csrci   mip, SSI
        HALT
        END_LIST
ENDCASE
ENDTESTS
