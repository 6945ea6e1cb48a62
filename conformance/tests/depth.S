// sctrdepth holds a depth that there is whatever is written; entries from the depth up read 0 and can't be written.
#include "ctr.h"

TESTS(30000)
// covers: depth-legal
CASE_ALL("there is a depth")
        la      t0, begin_signature
        ld      t0, R_FEATURES(t0)
        andi    t0, t0, 31
        seqz    t0, t0
        CHECK_EQ(t0, 0)
ENDCASE
CASE_ALL("whatever is written, a depth that there is is read")
        la      t0, begin_signature
        ld      s4, R_FEATURES(t0)
        li      s5, 0
1:      csrw    sctrdepth, s5
        csrr    t0, sctrdepth
        li      t1, 5
        sltu    t1, t0, t1
        CHECK_EQ(t1, 1)
        csrr    t0, sctrdepth
        srl     t1, s4, t0
        andi    t1, t1, 1
        CHECK_EQ(t1, 1)
        addi    s5, s5, 1
        li      t0, 8
        bltu    s5, t0, 1b
        li      t0, -8                  // reserved bits above the field; the depth 16 or another
        csrw    sctrdepth, t0
        csrr    t0, sctrdepth
        srli    t0, t0, 3
        CHECK_EQ(t0, 0)
ENDCASE
// covers: depth-above
CASE_ALL("entries from the depth up read 0 and ignore writes, at each depth")
        li      s5, 0
1:      csrw    sctrdepth, s5
        csrr    t0, sctrdepth
        bne     t0, s5, 3f
        li      t0, 16
        sll     s4, t0, s5
        addi    s4, s4, ENTRY
        li      t1, ENTRY               // those below hold something
        la      t2, _start + 1
4:      csrw    siselect, t1
        csrw    sireg, t2
        csrw    sireg2, t2
        csrw    sireg3, t0
        addi    t1, t1, 1
        bltu    t1, s4, 4b
2:      li      t0, 0x300
        bgeu    s4, t0, 5f
        csrw    siselect, s4
        la      t0, 1b
        csrw    sireg, t0
        csrw    sireg2, t0
        li      t0, 9
        csrw    sireg3, t0
        CHECK_CSR(sireg, 0)
        CHECK_CSR(sireg2, 0)
        CHECK_CSR(sireg3, 0)
        addi    s4, s4, 29
        j       2b
5:      li      t0, 16                  // and those below still hold what they held
        sll     s4, t0, s5
        la      s3, _start + 1
6:      addi    s4, s4, -1
        addi    t0, s4, ENTRY
        csrw    siselect, t0
        csrr    t0, sireg
        CHECK_REGS(t0, s3)
        bnez    s4, 6b
3:      addi    s5, s5, 1
        li      t0, 5
        bltu    s5, t0, 1b
ENDCASE
// covers: depth-pointer
CASE_ALL("after a change of depth WRPTR is below it")
        li      s5, 0
1:      li      s4, 0
2:      csrw    sctrdepth, s5
        csrr    t0, sctrdepth
        bne     t0, s5, 3f
        li      t0, 0xff
        csrw    sctrstatus, t0
        csrw    sctrdepth, s4
        csrr    t0, sctrdepth
        bne     t0, s4, 3f
        li      t1, 16
        sll     t1, t1, s4
        csrr    t0, sctrstatus
        sltu    t0, t0, t1
        CHECK_EQ(t0, 1)
3:      addi    s4, s4, 1
        li      t0, 5
        bltu    s4, t0, 2b
        addi    s5, s5, 1
        bltu    s5, t0, 1b
ENDCASE
// covers: depth-same
CASE_ALL("a write of the depth that is there is no change: entries and WRPTR stay")
        START_M(CTL_M)
        LIST
1:      j       2f
        ROW(1b, 2f, DIRJUMP)
2:      j       3f
        ROW(2b, 3f, DIRJUMP)
3:      HALT
        csrr    t0, sctrdepth
        csrw    sctrdepth, t0
        END_LIST
        CHECK_CSR(sctrstatus, 2)
ENDCASE
// covers: depth-supervisor
CASE("S can write it")
        AFTER(8f)
        ENTER_S(1f)
1:      csrr    s4, sctrdepth
        csrw    sctrdepth, s4
        csrr    s5, sctrdepth
        ecall
8:      CHECK_REGS(s4, s5)
        csrr    t0, sctrdepth
        CHECK_REGS(t0, s5)
ENDCASE
CASE("S can write each depth that there is")
        la      t0, begin_signature
        ld      s4, R_FEATURES(t0)
        AFTER(8f)
        li      s3, 0                   // the depths that held, a bit each
        ENTER_S(1f)
1:      li      s5, 4
2:      csrw    sctrdepth, s5
        csrr    t0, sctrdepth
        bne     t0, s5, 3f
        li      t1, 1
        sll     t1, t1, t0
        or      s3, s3, t1
3:      addi    s5, s5, -1
        bgez    s5, 2b
        ecall
8:      andi    s4, s4, 31
        CHECK_REGS(s3, s4)
ENDCASE
// covers: registers-apart
CASE_ALL("a write of the depth leaves FROZEN, the controls and the selects")
        li      t0, CTL_U | CTL_BPFRZ
        csrw    mctrctl, t0
        li      t0, ENTRY + 3
        csrw    siselect, t0
        li      t0, FROZEN
        csrw    sctrstatus, t0
        li      s5, 4
1:      csrw    sctrdepth, s5
        addi    s5, s5, -1
        bgez    s5, 1b
        csrr    s4, sctrstatus
        csrr    s5, mctrctl
        csrw    mctrctl, x0
        IS_FROZEN(s4)
        CHECK_EQ(s5, CTL_U | CTL_BPFRZ)
        CHECK_CSR(siselect, ENTRY + 3)
ENDCASE
// covers: depth-legal recorded-lost
CASE_ALL("after a change to the least depth, as many records as it has are kept")
        la      t0, ctr_depth
        ld      s5, 0(t0)
        GREATEST_DEPTH
        csrw    sctrdepth, s5
        START_M(CTL_M)
        ENTRIES_IN_S4
        slli    t1, s4, 1
        j       2f
1:      addi    t1, t1, -1
2:      bnez    t1, 1b
        HALT
        addi    s5, s4, -1
        CHECK_ENTRY_AT(s5, 2b, 1b, TAKEN)
        CHECK_ENTRY(0, 2b, 1b, TAKEN)
ENDCASE
ENDTESTS
