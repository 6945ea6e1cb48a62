// A filter bit leaves out transfers of its own type and no others, in each mode, and by the mode's own register.
#include "ctr.h"
#include "jumps_all.h"

#define FILTER(bit) NEED_CTL(bit, 0); li a0, CTL_M | bit; li a1, 0; li a2, bit; li a3, 0; RUN(run_m, list_m); ENDCASE

// Each filter bit that there is, one at a time. m and vs enable the mode; guest is 1 where vsctrctl filters.
#define EACH(m, vs, guest, run, list) \
        la t0, ctr_scratch; sd x0, 0(t0); \
4:      la t0, ctr_scratch; ld t1, 0(t0); li t2, 1; addi t3, t1, 36; sll t2, t2, t3; addi t1, t1, 1; sd t1, 0(t0); \
        la t0, begin_signature; ld t3, (R_MCTRCTL + 8 * guest)(t0); li t4, CTL_JUMPS; and t2, t2, t4; and t2, t2, t3; \
        mv a2, t2; li a3, 0; li a0, m; li a1, vs; \
        .if guest; or a1, a1, t2; .else; or a0, a0, t2; .endif; \
        RUN(run, list); \
        la t0, ctr_scratch; ld t1, 0(t0); li t0, 12; bltu t1, t0, 4b

TESTS(800000)
// covers: filter-own filter-not-taken
CASE_ALL("without filter bits all but branches that aren't taken are recorded")
        li      a0, CTL_M
        li      a1, 0
        li      a2, 0
        li      a3, 0
        RUN(run_m, list_m)
ENDCASE
CASE_ALL("NTBREN, branches that aren't taken"); FILTER(CTL_NTBREN)
CASE_ALL("TKBRINH, taken branches"); FILTER(CTL_TKBRINH)
CASE_ALL("INDCALLINH, indirect calls"); FILTER(CTL_INDCALLINH)
CASE_ALL("DIRCALLINH, direct calls"); FILTER(CTL_DIRCALLINH)
CASE_ALL("INDJMPINH, indirect jumps"); FILTER(CTL_INDJMPINH)
CASE_ALL("DIRJMPINH, direct jumps"); FILTER(CTL_DIRJMPINH)
CASE_ALL("CORSWAPINH, co-routine swaps"); FILTER(CTL_CORSWAPINH)
CASE_ALL("RETINH, function returns"); FILTER(CTL_RETINH)
CASE_ALL("INDLJMPINH, other indirect jumps"); FILTER(CTL_INDLJMPINH)
CASE_ALL("DIRLJMPINH, other direct jumps"); FILTER(CTL_DIRLJMPINH)
CASE_ALL("all sets of the filter bits that there are")
        la      t0, ctr_scratch
        sd      x0, 0(t0)
1:      la      t0, begin_signature     // the next set: (set - mask) & mask
        ld      t1, R_MCTRCTL(t0)
        li      t2, CTL_JUMPS
        and     t1, t1, t2
        la      t0, ctr_scratch
        ld      t3, 0(t0)
        sub     t3, t3, t1
        and     t3, t3, t1
        sd      t3, 0(t0)
        ori     a0, t3, CTL_M
        li      a1, 0
        mv      a2, t3
        li      a3, 0
        RUN(run_m, list_m)
        la      t0, ctr_scratch
        ld      t3, 0(t0)
        bnez    t3, 1b
ENDCASE
// covers: filter-own
CASE("each filter bit of mctrctl in S")
        EACH(CTL_S, 0, 0, run_s, list_s)
ENDCASE
CASE_OR("each filter bit of mctrctl in U", "each filter bit of sctrctl in U")
        EACH(CTL_U, 0, 0, run_u, list_u)
ENDCASE
// covers: filter-own guest-filters
CASE_ALL("each filter bit of vsctrctl in VS")
        NEED(HAS_H)
        EACH(0, CTL_VS, 1, run_vs, list_vs)
ENDCASE
CASE_ALL("each filter bit of vsctrctl in VU")
        NEED(HAS_H)
        EACH(0, CTL_VU, 1, run_vu, list_vu)
ENDCASE
CASE_OR("filter bits of mctrctl don't count in VS", "filter bits of sctrctl don't count in VS")
        NEED(HAS_H)
        la      t0, begin_signature
        ld      a0, R_MCTRCTL(t0)
        li      a1, CTL_JUMPS
        and     a0, a0, a1
        li      a1, CTL_VS
        li      a2, 0
        li      a3, 0
        RUN(run_vs, list_vs)
ENDCASE
CASE("filter bits of vsctrctl don't count in S")
        NEED(HAS_H)
        la      t0, begin_signature
        ld      a1, R_VSCTRCTL(t0)
        li      a0, CTL_JUMPS
        and     a1, a1, a0
        li      a0, CTL_S
        li      a2, 0
        li      a3, 0
        RUN(run_s, list_s)
ENDCASE
// covers: supervisor-write filter-own
CASE("filter bits written through sctrctl count in S and in M")
        NEED_CTL(CTL_DIRCALLINH, 0)
        START_M(0)
        li      t0, CTL_DIRCALLINH
        csrs    sctrctl, t0
        csrsi   mctrctl, CTL_M
        LIST
1:      jal     x1, 2f
2:      j       3f
        ROW(2b, 3f, DIRJUMP)
3:      HALT
        END_LIST
ENDCASE
// covers: filter-own
CASE_ALL("the filter bits of traps leave branches and jumps in")
        la      t0, begin_signature
        ld      a0, R_MCTRCTL(t0)
        li      a1, CTL_EXCINH | CTL_INTRINH | CTL_TRETINH
        and     a0, a0, a1
        ori     a0, a0, CTL_M
        li      a1, 0
        li      a2, 0
        li      a3, 0
        RUN(run_m, list_m)
ENDCASE
// covers: guest-filters
CASE_OR("filter bits of mctrctl don't count in VU", "filter bits of sctrctl don't count in VU")
        NEED(HAS_H)
        la      t0, begin_signature
        ld      a0, R_MCTRCTL(t0)
        li      a1, CTL_JUMPS
        and     a0, a0, a1
        li      a1, CTL_VU
        li      a2, 0
        li      a3, 0
        RUN(run_vu, list_vu)
ENDCASE
CASE_ALL("filter bits of vsctrctl don't count in U")
        NEED(HAS_H)
        la      t0, begin_signature
        ld      a1, R_VSCTRCTL(t0)
        li      a0, CTL_JUMPS
        and     a1, a1, a0
        li      a0, CTL_U
        li      a2, 0
        li      a3, 0
        RUN(run_u, list_u)
ENDCASE
// covers: filter-own recorded-pointer
CASE_ALL("a transfer that is filtered out leaves WRPTR")
        NEED_CTL(CTL_DIRJMPINH, 0)
        START_M(CTL_M | CTL_DIRJMPINH)
        LIST
1:      j       2f
2:      jal     x1, 3f
        ROW(2b, 3f, DIRCALL)
3:      j       4f
4:      HALT
        END_LIST
        CHECK_CSR(sctrstatus, 1)
ENDCASE
ENDTESTS
