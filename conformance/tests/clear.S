// SCTRCLR zeroes all entries; recording goes on with the next transfer.
#include "ctr.h"

// All three parts of each entry are 0.
#define ALL_ZERO \
        ENTRIES_IN_S4; li s5, 0; \
7:      addi t0, s5, ENTRY; csrw siselect, t0; \
        CHECK_CSR(sireg, 0); CHECK_CSR(sireg2, 0); CHECK_CSR(sireg3, 0); \
        addi s5, s5, 1; bltu s5, s4, 7b
// Fills all entries by software.
#define FILL \
        ENTRIES_IN_S4; li s5, 0; la t2, _start + 1; li t3, 9; \
7:      addi t0, s5, ENTRY; csrw siselect, t0; csrw sireg, t2; csrw sireg2, t2; csrw sireg3, t3; \
        addi s5, s5, 1; bltu s5, s4, 7b

TESTS(35000)
// covers: clear-entries
CASE_OR("in M", "in S")
        FILL
        SCTRCLR
        ALL_ZERO
ENDCASE
CASE_ALL("at the greatest depth")
        li      t0, 5
1:      addi    t0, t0, -1
        csrw    sctrdepth, t0
        csrr    t1, sctrdepth
        bne     t0, t1, 1b
        FILL
        SCTRCLR
        ALL_ZERO
ENDCASE
// covers: clear-entries clear-modes
CASE("in S")
        FILL
        AFTER(8f)
        ENTER_S(1f)
1:      SCTRCLR
        ecall
8:      ALL_ZERO
ENDCASE
CASE_ALL("in VS")
        NEED(HAS_H)
        FILL
        AFTER(8f)
        ENTER_VS(1f)
1:      SCTRCLR
        ecall
8:      ALL_ZERO
ENDCASE
// covers: clear-entries
CASE_ALL("entries that hold no transfer are zeroed too")
        START_M(0)
        FILL
        li      s5, 0
1:      addi    t0, s5, ENTRY
        csrw    siselect, t0
        csrci   sireg, 1                // V
        addi    s5, s5, 1
        bltu    s5, s4, 1b
        SCTRCLR
        ALL_ZERO
ENDCASE
// covers: clear-leaves clear-entries
CASE_ALL("between transfers: what comes after it alone is there")
        START_M(CTL_M)
1:      j       2f
2:      j       3f
3:      SCTRCLR
        LIST
4:      j       5f
        ROW(4b, 5f, DIRJUMP)
5:      j       6f
        ROW(5b, 6f, DIRJUMP)
6:      HALT
        END_LIST
ENDCASE
CASE_ALL("after it the buffer takes as many entries as before")
        START_M(CTL_M)
        csrr    t0, sctrdepth
        li      t1, 16
        sll     t1, t1, t0
        addi    t1, t1, 5
1:      addi    t1, t1, -1
        bnez    t1, 1b
        SCTRCLR
        ENTRIES_IN_S4
        mv      t1, s4
        j       3f
2:      addi    t1, t1, -1
3:      bnez    t1, 2b
        HALT
        addi    s4, s4, -1              // the jump is lost, the depth of branches is left
        mv      a0, s4
        la      a1, 3b
        la      a2, 2b
        li      a3, TAKEN
        li      a4, __LINE__
        call    ctr_check_entry
        CHECK_ENTRY(0, 3b, 2b, TAKEN)
ENDCASE
CASE_ALL("it leaves the controls and FROZEN")
        START_M(CTL_M)
1:      j       2f
2:      li      t0, FROZEN
        csrs    sctrstatus, t0
        SCTRCLR
        j       3f
3:      csrr    s5, mctrctl
        HALT
        csrr    s4, sctrstatus
        LIST
        END_LIST
        li      t0, FROZEN
        and     s4, s4, t0
        CHECK_REGS(s4, t0)
        CHECK_EQ(s5, CTL_M)
ENDCASE
CASE_ALL("it leaves WRPTR, the depth, the selects and vsctrctl")
        GREATEST_DEPTH
        csrr    s5, sctrdepth
        li      t0, ENTRY + 5
        csrw    siselect, t0
        csrwi   sctrstatus, 9
        SCTRCLR
        CHECK_CSR(sctrstatus, 9)
        CHECK_CSR(siselect, ENTRY + 5)
        csrr    t0, sctrdepth
        CHECK_REGS(t0, s5)
        NEED(HAS_H)
        li      t0, ENTRY + 6
        csrw    vsiselect, t0
        li      t0, CTL_VS | CTL_BPFRZ
        csrw    vsctrctl, t0
        SCTRCLR
        CHECK_CSR(vsiselect, ENTRY + 6)
        CHECK_CSR(vsctrctl, CTL_VS | CTL_BPFRZ)
ENDCASE
CASE("in S and in VS too it leaves the controls, WRPTR and FROZEN")
        START(CTL_M | CTL_BPFRZ, 0, 8f)
        li      t0, FROZEN | 3
        csrw    sctrstatus, t0
        ENTER_S(1f)
1:      SCTRCLR
        ecall
8:      CHECK_EQ(s10, FROZEN | 3)
        CHECK_EQ(s11, CTL_M | CTL_BPFRZ)
        NEED(HAS_H)
        START(CTL_M | CTL_BPFRZ, CTL_VU | CTL_BPFRZ, 8f)
        li      t0, FROZEN | 3
        csrw    sctrstatus, t0
        ENTER_VS(1f)
1:      SCTRCLR
        ecall
8:      CHECK_EQ(s10, FROZEN | 3)
        CHECK_EQ(s11, CTL_M | CTL_BPFRZ)
        CHECK_CSR(vsctrctl, CTL_VU | CTL_BPFRZ)
ENDCASE
// covers: clear-entries recorded-pointer
CASE_ALL("a record after it goes to where WRPTR points, and is entry 0")
        START_M(CTL_M)
        csrwi   sctrstatus, 15
        SCTRCLR
        LIST
1:      j       2f
        ROW(1b, 2f, DIRJUMP)
2:      HALT
        END_LIST
        ENTRIES_IN_S4
        addi    s4, s4, -1
        csrr    t0, sctrstatus
        li      t1, 16
        and     t1, t1, s4
        CHECK_REGS(t0, t1)
ENDCASE
// covers: clear-entries
CASE_ALL("while FROZEN is set, and with recording off, it zeroes the entries too")
        FILL
        li      t0, FROZEN
        csrs    sctrstatus, t0
        SCTRCLR
        ALL_ZERO
ENDCASE
ENDTESTS
