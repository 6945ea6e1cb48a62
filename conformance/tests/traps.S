// Traps and trap returns between M, S and U: whole where both modes are enabled, in part or not at all where one is.
#include "ctr.h"

// From mode X into M by ECALL, where MRET enters X from M.
#define INTO_M(ENTER, controls, first, second) \
        START(controls, 0, 8f); ENTER(1f); \
1:      ecall; \
8:      LIST; first; second; END_LIST; ENDCASE
// From U into S by a delegated ECALL, M not enabled. s8 shows that the trap went there.
#define INTO_S(controls, second) \
        DELEGATE(1 << 8, 0); li s8, -1; START(controls, 0, 8f); ENTER_U(1f); \
1:      ecall; \
8:      LIST; second; END_LIST; CHECK_CSR(mcause, 9); ENDCASE
// From S to U or S by SRET, M not enabled; an ECALL ends it.
#define FROM_S(SRET_TO, controls, second) \
        START(controls, 0, 8f); ENTER_S(1f); \
1:      SRET_TO(2f); \
2:      ecall; \
8:      LIST; second; END_LIST; ENDCASE

TESTS(25000)
// covers: trap-whole return-whole trap-source type-exception type-return
CASE_OR("U to M, both enabled", "U to S, both enabled"); INTO_M(ENTER_U, CTL_U | CTL_M, ROW(90b, 1b, TRAPRET), ROW(1b, ctr_mtrap, EXCEPTION))
// covers: trap-into return-out
CASE_OR("U to M, M enabled: the trap without source, the return without target", "U to S, S enabled: the trap without source, the return without target"); INTO_M(ENTER_U, CTL_M, ROW(90b, 0, TRAPRET), ROW(0, ctr_mtrap, EXCEPTION))
// covers: trap-out return-into
CASE_OR("U to M, U enabled: nothing", "U to S, U enabled: nothing"); INTO_M(ENTER_U, CTL_U, NONE, NONE)
// covers: trap-neither
CASE_OR("U to M, neither enabled: nothing", "U to S, neither enabled: nothing"); INTO_M(ENTER_U, CTL_BETWEEN, NONE, NONE)
// covers: trap-whole return-whole
CASE("S to M, both enabled"); INTO_M(ENTER_S, CTL_S | CTL_M, ROW(90b, 1b, TRAPRET), ROW(1b, ctr_mtrap, EXCEPTION))
// covers: trap-into return-out
CASE("S to M, M enabled: the trap without source, the return without target"); INTO_M(ENTER_S, CTL_M, ROW(90b, 0, TRAPRET), ROW(0, ctr_mtrap, EXCEPTION))
// covers: trap-out return-into
CASE("S to M, S enabled: nothing"); INTO_M(ENTER_S, CTL_S, NONE, NONE)
// covers: trap-neither
CASE("S to M, neither enabled: nothing"); INTO_M(ENTER_S, CTL_U, NONE, NONE)
// covers: trap-whole return-whole
CASE("M to M, enabled"); INTO_M(ENTER_M, CTL_M, ROW(90b, 1b, TRAPRET), ROW(1b, ctr_mtrap, EXCEPTION))
// covers: trap-neither
CASE("M to M, not enabled: nothing"); INTO_M(ENTER_M, CTL_S | CTL_U, NONE, NONE)
// covers: trap-whole
CASE("U to S, both enabled"); INTO_S(CTL_U | CTL_S, ROW(1b, ctr_strap, EXCEPTION))
// covers: trap-into
CASE("U to S, S enabled: without source"); INTO_S(CTL_S, ROW(0, ctr_strap, EXCEPTION))
// covers: trap-out
CASE("U to S, U enabled: nothing"); INTO_S(CTL_U, NONE)
// covers: trap-neither
CASE("U to S, neither enabled: nothing"); INTO_S(0, NONE)
// covers: return-whole type-return
CASE("SRET from S to U, both enabled"); FROM_S(SRET_TO_U, CTL_S | CTL_U, ROW(92b, 2b, TRAPRET))
// covers: return-out
CASE("SRET from S to U, S enabled: without target"); FROM_S(SRET_TO_U, CTL_S, ROW(92b, 0, TRAPRET))
// covers: return-into
CASE("SRET from S to U, U enabled: nothing"); FROM_S(SRET_TO_U, CTL_U, NONE)
CASE("SRET from S to U, neither enabled: nothing"); FROM_S(SRET_TO_U, 0, NONE)
// covers: return-whole
CASE("SRET from S to S, enabled"); FROM_S(SRET_TO_S, CTL_S, ROW(92b, 2b, TRAPRET))
// covers: return-into
CASE("SRET from S to S, not enabled: nothing"); FROM_S(SRET_TO_S, CTL_U, NONE)
// covers: trap-whole
CASE("an exception within S")
        DELEGATE(1 << 3, 0)
        START(CTL_S, 0, 8f)
        ENTER_S(1f)
1:      ebreak
8:      LIST
        ROW(1b, ctr_strap, EXCEPTION)
        END_LIST
ENDCASE
// covers: return-whole type-return
CASE("SRET in M")
        START(CTL_M | CTL_U, 0, 8f)
        la      t0, 1f
        csrw    sepc, t0
        li      t0, 0x100
        csrc    mstatus, t0
90:     sret
1:      ecall
8:      LIST
        ROW(90b, 1b, TRAPRET)
        ROW(1b, ctr_mtrap, EXCEPTION)
        END_LIST
ENDCASE
// covers: type-exception trap-source
CASE_ALL("exceptions of other causes: EBREAK, an illegal instruction, an access that isn't allowed")
        START(CTL_M | CTL_U, 0, 8f)
        ENTER_U(1f)
1:      ebreak
8:      LIST
        ROW(90b, 1b, TRAPRET)
        ROW(1b, ctr_mtrap, EXCEPTION)
        END_LIST
        START(CTL_M | CTL_U, 0, 8f)
        ENTER_U(1f)
1:      .word   0
8:      LIST
        ROW(90b, 1b, TRAPRET)
        ROW(1b, ctr_mtrap, EXCEPTION)
        END_LIST
        START(CTL_M | CTL_U, 0, 8f)
        ENTER_U(1f)
1:      csrr    t0, mscratch
8:      LIST
        ROW(90b, 1b, TRAPRET)
        ROW(1b, ctr_mtrap, EXCEPTION)
        END_LIST
ENDCASE
// covers: filter-traps
CASE_ALL("EXCINH leaves exceptions out")
        START(CTL_M | CTL_U | CTL_EXCINH, 0, 8f)
        ENTER_U(1f)
1:      ecall
8:      LIST
        ROW(90b, 1b, TRAPRET)
        END_LIST
ENDCASE
CASE_ALL("EXCINH leaves exceptions out of a mode that isn't enabled too")
        START(CTL_M | CTL_EXCINH, 0, 8f)
        ENTER_U(1f)
1:      ecall
8:      LIST
        ROW(90b, 0, TRAPRET)
        END_LIST
ENDCASE
CASE_ALL("TRETINH leaves trap returns out")
        START(CTL_M | CTL_U | CTL_TRETINH, 0, 8f)
        ENTER_U(1f)
1:      ecall
8:      LIST
        ROW(1b, ctr_mtrap, EXCEPTION)
        END_LIST
ENDCASE
CASE_ALL("TRETINH leaves trap returns into a mode that isn't enabled out too")
        START(CTL_M | CTL_TRETINH, 0, 8f)
        ENTER_U(1f)
1:      ecall
8:      LIST
        ROW(0, ctr_mtrap, EXCEPTION)
        END_LIST
ENDCASE
CASE_ALL("INTRINH and the filter bits of jumps leave exceptions and returns in")
        la      t0, begin_signature
        ld      a0, R_MCTRCTL(t0)
        li      t0, CTL_JUMPS | CTL_INTRINH
        and     a0, a0, t0
        ori     a0, a0, CTL_M | CTL_U
        li      a1, 0
        START_REGS(8f)
        ENTER_U(1f)
1:      ecall
8:      LIST
        ROW(90b, 1b, TRAPRET)
        ROW(1b, ctr_mtrap, EXCEPTION)
        END_LIST
ENDCASE
// covers: trap-source
CASE_ALL("a load that faults is recorded as an exception, at its own address")
        START(CTL_M | CTL_U, 0, 8f)
        li      x6, -4096
        ENTER_U(1f)
1:      ld      x7, 0(x6)
8:      LIST
        ROW(90b, 1b, TRAPRET)
        ROW(1b, ctr_mtrap, EXCEPTION)
        END_LIST
ENDCASE
// covers: recorded-retired
CASE_ALL("a jump that itself raises an exception is no jump: the exception alone is recorded")
        NEED(HAS_GRAIN)
        START(CTL_M | CTL_U, 0, 8f)
        la      x6, 1f + 2
        ENTER_U(1f)
1:      jalr    x1, 0(x6)
8:      LIST
        ROW(90b, 1b, TRAPRET)
        ROW(1b, ctr_mtrap, EXCEPTION)
        END_LIST
ENDCASE
// covers: type-exception trap-source trap-target
CASE_ALL("a store that faults, and a load and a store that aren't aligned")
        START(CTL_M | CTL_U, 0, 8f)
        li      x6, -4096
        ENTER_U(1f)
1:      sd      x7, 0(x6)
8:      LIST
        ROW(90b, 1b, TRAPRET)
        ROW(1b, ctr_mtrap, EXCEPTION)
        END_LIST
        li      s5, 0                   // 1 where a load that isn't aligned works
        START(CTL_M | CTL_U, 0, 8f)
        la      s4, ctr_scratch + 1
        ENTER_U(1f)
1:      ld      x7, 0(s4)
        li      s5, 1
        .word   0
8:      bnez    s5, 7f
        LIST
        ROW(90b, 1b, TRAPRET)
        ROW(1b, ctr_mtrap, EXCEPTION)
        END_LIST
        START(CTL_M | CTL_U, 0, 8f)
        la      s4, ctr_scratch + 1
        ENTER_U(1f)
1:      sd      x7, 0(s4)
        .word   0
8:      LIST
        ROW(90b, 1b, TRAPRET)
        ROW(1b, ctr_mtrap, EXCEPTION)
        END_LIST
7:
ENDCASE
// covers: recorded-retired trap-source
CASE_ALL("a branch that itself raises an exception is no branch")
        NEED(HAS_GRAIN)
        START(CTL_M | CTL_U, 0, 8f)
        ENTER_U(1f)
1:      .word   0x00000163              // BEQ x0, x0, .+2
8:      LIST
        ROW(90b, 1b, TRAPRET)
        ROW(1b, ctr_mtrap, EXCEPTION)
        END_LIST
ENDCASE
CASE_ALL("a jump with linkage that itself raises an exception is no jump, also under return-stack emulation")
        NEED(HAS_GRAIN)
        START(CTL_M | CTL_U, 0, 8f)
        ENTER_U(1f)
1:      .word   0x002000ef              // JAL x1, .+2
8:      LIST
        ROW(90b, 1b, TRAPRET)
        ROW(1b, ctr_mtrap, EXCEPTION)
        END_LIST
        START(CTL_M | CTL_U | CTL_RASEMU, 0, 8f)
        ENTER_U(1f)
1:      .word   0x002000ef
8:      LIST
        END_LIST
        CHECK_CSR(sctrstatus, 0)
ENDCASE
// covers: recorded-retired type-return
CASE("a return that is refused is an exception: MRET in S, SRET in U")
        START(CTL_M | CTL_S, 0, 8f)
        ENTER_S(1f)
1:      mret
8:      LIST
        ROW(90b, 1b, TRAPRET)
        ROW(1b, ctr_mtrap, EXCEPTION)
        END_LIST
        START(CTL_M | CTL_U, 0, 8f)
        ENTER_U(1f)
1:      sret
8:      LIST
        ROW(90b, 1b, TRAPRET)
        ROW(1b, ctr_mtrap, EXCEPTION)
        END_LIST
ENDCASE
// covers: trap-whole return-whole
CASE("from U into S and back, both enabled, in one run")
        DELEGATE(1 << ECALL_U, 0)
        la      t0, handler
        csrw    stvec, t0
        START(CTL_U | CTL_S, 0, 8f)
        LIST
        ENTER_U(1f)
        .balign 4
handler:
        csrr    t0, sepc                // behind the ECALL
        addi    t0, t0, 4
        csrw    sepc, t0
3:      sret
1:      ecall
        ROW(1b, handler, EXCEPTION)
        ROW(3b, 2f, TRAPRET)
2:      j       4f
        ROW(2b, 4f, DIRJUMP)
4:      .word   0                       // illegal, and not delegated
8:      END_LIST
ENDCASE
// covers: trap-target
CASE("with a vectored trap vector an exception goes to the base")
        la      t0, base
        addi    t1, t0, 1
        csrw    stvec, t1
        csrr    t2, stvec
        bne     t1, t2, 7f
        DELEGATE(1 << ECALL_U, 0)
        START(CTL_U | CTL_S, 0, 8f)
        ENTER_U(1f)
1:      ecall
7:      li      a0, SKIP_CSR
        li      a1, 0x105
        j       ctr_skip
        .balign 256
base:   csrci   sctrctl, CTL_S | CTL_U
        li      t0, FROZEN
        csrs    sctrstatus, t0
        ecall
8:      LIST
        ROW(1b, base, EXCEPTION)
        END_LIST
ENDCASE
ENDTESTS
