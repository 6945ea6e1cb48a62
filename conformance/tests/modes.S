// Transfers within a mode are recorded exactly where the mode is enabled, by its own bit of its own register.
#include "ctr.h"
#include "jumps_all.h"

// All sets of the enable bits in the masks: m of mctrctl, vs of vsctrctl. own is the mode's bit: recorded exactly with it.
#define SETS(m, vs, guest, own, run, list) \
        la t0, ctr_scratch; sd x0, 0(t0); \
4:      la t0, ctr_scratch; ld t1, 0(t0); andi a0, t1, 7; srli a1, t1, 3; \
        andi a0, a0, m; andi a1, a1, vs; \
        .if guest; andi a3, a1, own; .else; andi a3, a0, own; .endif; \
        seqz a3, a3; li a2, 0; RUN(run, list); \
        la t0, ctr_scratch; ld t1, 0(t0); addi t1, t1, 1; sd t1, 0(t0); \
        li t2, 8; .if vs; li t2, 32; .endif; bltu t1, t2, 4b

TESTS(130000)
// covers: recorded-mode
CASE_OR("M, by mctrctl.M", "S, by sctrctl.S")
        SETS(CTL_M | CTL_BETWEEN | CTL_U, 0, 0, CTL_M, run_m, list_m)
ENDCASE
CASE("S, by mctrctl.S")
        SETS(3, 0, 0, CTL_S, run_s, list_s)
ENDCASE
CASE_OR("U, by mctrctl.U", "U, by sctrctl.U")
        SETS(CTL_BETWEEN | CTL_U, 0, 0, CTL_U, run_u, list_u)
ENDCASE
// covers: recorded-mode guest-enables
CASE("S whatever vsctrctl says")
        NEED(HAS_H)
        SETS(3, 3, 0, CTL_S, run_s, list_s)
ENDCASE
CASE_ALL("U whatever vsctrctl says")
        NEED(HAS_H)
        SETS(CTL_BETWEEN | CTL_U, 3, 0, CTL_U, run_u, list_u)
ENDCASE
CASE_ALL("VS, by vsctrctl.S")
        NEED(HAS_H)
        SETS(CTL_BETWEEN | CTL_U, 3, 1, CTL_VS, run_vs, list_vs)
ENDCASE
CASE_ALL("VU, by vsctrctl.U")
        NEED(HAS_H)
        SETS(CTL_BETWEEN | CTL_U, 3, 1, CTL_VU, run_vu, list_vu)
ENDCASE
// covers: control-at-once supervisor-write
CASE("S by a write of sctrctl in S, from the next instruction on")
        START(0, 0, 8f)
        ENTER_S(1f)
1:      j       2f
2:      csrsi   sctrctl, CTL_S
        LIST
3:      j       4f
        ROW(3b, 4f, DIRJUMP)
4:      csrci   sctrctl, CTL_S
5:      j       6f
6:      ecall
8:      END_LIST
ENDCASE
// covers: control-at-once guest-control-view
CASE_ALL("VS by a write of sctrctl in VS, which is vsctrctl there")
        NEED(HAS_H)
        START(0, 0, 8f)
        ENTER_VS(1f)
1:      j       2f
2:      csrsi   sctrctl, CTL_VS
        LIST
3:      j       4f
        ROW(3b, 4f, DIRJUMP)
4:      csrci   sctrctl, CTL_VS
5:      j       6f
6:      ecall
8:      END_LIST
        CHECK_CSR(mctrctl, 0)
        CHECK_CSR(vsctrctl, 0)
ENDCASE
// covers: control-at-once
CASE_OR("M by a write of mctrctl, from the next instruction on, and up to the write that ends it", "S by a write of sctrctl, from the next instruction on, and up to the write that ends it")
        START_M(0)
        LIST
1:      j       2f
2:      csrsi   mctrctl, CTL_M
3:      jal     x1, 4f
        ROW(3b, 4f, DIRCALL)
4:      csrci   mctrctl, CTL_M
5:      j       6f
6:      END_LIST
ENDCASE
// covers: recorded-mode trap-neither
CASE("a mode between two that are enabled leaves no record of its own")
        DELEGATE(1 << ECALL_U, 0)
        START(CTL_U | CTL_M, 0, 8f)
        ENTER_S(1f)
1:      j       2f
2:      SRET_TO_U(3f)
3:      j       4f
4:      .word   0                       // illegal, and not delegated
8:      LIST
        ROW(90b, 0, TRAPRET)
        ROW(3b, 4b, DIRJUMP)
        ROW(4b, ctr_mtrap, EXCEPTION)
        END_LIST
ENDCASE
ENDTESTS
