// What shows where the environment is at home in S alone: the registers as S has them, M that is out of reach, and the trap
// vector of S. All cases are of S.
#include "ctr.h"

TESTS(30000)
// covers: supervisor-view supervisor-write
CASE_S("sctrctl holds S, U and BPFRZ, and neither M nor MTE, whatever is written")
        li      t0, ~CTL_CUSTOM
        csrw    sctrctl, t0
        csrr    s4, sctrctl
        csrw    sctrctl, x0
        li      t0, 1 << 2 | 1 << 9     // M and MTE
        and     t0, s4, t0
        CHECK_EQ(t0, 0)
        li      t0, CTL_S | CTL_U | CTL_BPFRZ
        and     s4, s4, t0
        CHECK_REGS(s4, t0)
        CHECK_CSR(sctrctl, 0)
ENDCASE
// covers: access-supervisor clear-modes
CASE_S("all but mctrctl can be read and written, which is an illegal instruction")
        li      t0, ENTRY
        csrw    siselect, t0
        .irp    csr, sctrctl, sctrstatus, sctrdepth, siselect, sireg, sireg2, sireg3
        TRY(csrr t0, \csr)
        CHECK_EQ(a1, NO_TRAP)
        TRY(csrci \csr, 1)
        CHECK_EQ(a1, NO_TRAP)
        .endr
        TRY(SCTRCLR)
        CHECK_EQ(a1, NO_TRAP)
        TRY(csrr t0, MCTRCTL)
        CHECK_EQ(a1, ILLEGAL)
        TRY(csrci MCTRCTL, 1)
        CHECK_EQ(a1, ILLEGAL)
ENDCASE
CASE_S("those of VS can be read and written")
        NEED(HAS_H)
        li      t0, ENTRY
        csrw    vsiselect, t0
        .irp    csr, vsctrctl, vsiselect, vsireg, vsireg2, vsireg3
        TRY(csrr t0, \csr)
        CHECK_EQ(a1, NO_TRAP)
        TRY(csrci \csr, 1)
        CHECK_EQ(a1, NO_TRAP)
        .endr
ENDCASE
// covers: access-refused
CASE_S("a refused write of mctrctl changes nothing")
        li      t0, CTL_BPFRZ
        csrw    sctrctl, t0
        li      t0, -1
        TRY(csrw MCTRCTL, t0)
        csrw    sctrctl, x0
        CHECK_EQ(a1, ILLEGAL)
        CHECK_EQ(s11, CTL_BPFRZ)        // as the trap found it
ENDCASE
// covers: depth-supervisor
CASE_S("each depth that probing found is read back")
        la      t0, begin_signature
        ld      s4, R_FEATURES(t0)
        li      s3, 0                   // the depths that held, a bit each
        li      s5, 4
2:      csrw    sctrdepth, s5
        csrr    t0, sctrdepth
        bne     t0, s5, 3f
        li      t1, 1
        sll     t1, t1, t0
        or      s3, s3, t1
3:      addi    s5, s5, -1
        bgez    s5, 2b
        andi    s4, s4, 31
        CHECK_REGS(s3, s4)
        snez    s3, s3
        CHECK_EQ(s3, 1)
ENDCASE
// covers: trap-out return-into
CASE_S("a call of the firmware leaves no record: M isn't enabled")
        START_M(CTL_S)
        LIST
1:      j       2f
        ROW(1b, 2f, DIRJUMP)
2:      ecall
3:      j       4f
        ROW(3b, 4f, DIRJUMP)
4:      HALT
        END_LIST
        CHECK_CSR(sctrstatus, 2)
ENDCASE
// covers: external-bits
CASE_S("STE doesn't ask for a record of a trap into M")
        START_M(CTL_S | CTL_STE)
        LIST
1:      j       2f
        ROW(1b, 2f, DIRJUMP)
2:      ecall
        HALT
        END_LIST
ENDCASE
// covers: external-bits return-out
CASE_S("STE doesn't count for a return, nor for a trap from a mode that isn't enabled")
        START(CTL_STE, 0, 8f)
        ENTER_U(1f)
1:      ecall
8:      LIST
        END_LIST
        START(CTL_S | CTL_STE, 0, 8f)
        ENTER_U(1f)
1:      ecall
8:      LIST
        ROW(90b, 0, TRAPRET)
        ROW(0, ctr_mtrap, EXCEPTION)
        END_LIST
        NEED(HAS_H)
        NEED_CTL(CTL_STE, CTL_STE)
        START(CTL_STE, CTL_STE, 8f)
        ENTER_VU(1f)
1:      ecall
8:      LIST
        END_LIST
ENDCASE
// covers: emulation-traps
CASE_S("under return-stack emulation a call of the firmware leaves the stack")
        START_M(CTL_S | CTL_RASEMU)
        LIST
1:      jal     x1, 2f
        ROW(1b, 2f, DIRCALL)
2:      ecall
3:      jal     x1, 4f
        ROW(3b, 4f, DIRCALL)
4:      ecall
        HALT
        END_LIST
        CHECK_CSR(sctrstatus, 2)
ENDCASE
// covers: trap-whole return-whole type-return
CASE_S("SRET from S to S and an exception within S, enabled")
        START(CTL_S, 0, 8f)
        ENTER_M(1f)
1:      ebreak
8:      LIST
        ROW(90b, 1b, TRAPRET)
        ROW(1b, ctr_mtrap, EXCEPTION)
        END_LIST
ENDCASE
// covers: trap-neither
CASE_S("SRET from S to S and an exception within S, not enabled: nothing")
        START(CTL_U, 0, 8f)
        ENTER_M(1f)
1:      ebreak
8:      LIST
        END_LIST
ENDCASE
// covers: recorded-retired
CASE_S("MRET in S is an exception, and no return")
        START(CTL_S, 0, 8f)
        LIST
1:      mret
8:      ROW(1b, ctr_mtrap, EXCEPTION)
        END_LIST
ENDCASE
// covers: trap-target
CASE_S("vectored: an exception goes to the base, an interrupt to its own address")
        la      s5, base + 1
        csrw    stvec, s5
        csrr    s4, stvec
        la      t0, ctr_mtrap
        csrw    stvec, t0
        bne     s5, s4, 7f
        START(CTL_S | CTL_U, 0, 8f)
        csrw    stvec, s5
        la      t1, 1f
        csrw    sepc, t1
        li      t0, STATUS_SPP
        csrc    sstatus, t0
90:     sret
1:      ecall
8:      LIST
        ROW(90b, 1b, TRAPRET)
        ROW(1b, base, EXCEPTION)
        ROW(base, ctr_mtrap, DIRJUMP)
        END_LIST
        csrwi   sie, SSI
        csrsi   sip, SSI
        START(CTL_S | CTL_U, 0, 8f)
        csrw    stvec, s5
        la      t1, 1f
        csrw    sepc, t1
        li      t0, STATUS_SPP
        csrc    sstatus, t0
90:     sret
1:      nop
        ecall
        .balign 256
base:   .option push
        .option norvc
        j       ctr_mtrap
        j       ctr_mtrap               // the supervisor software interrupt, cause 1
        .option pop
7:      li      a0, SKIP_CSR
        li      a1, 0x105
        j       ctr_skip
8:      csrci   sip, SSI
        LIST
        ROW(90b, 1b, TRAPRET)
        ROW(1b, base + 4, INTERRUPT)
        ROW(base + 4, ctr_mtrap, DIRJUMP)
        END_LIST
ENDCASE
ENDTESTS
