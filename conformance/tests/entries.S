// The entry registers: siselect ENTRY to 0x2ff names the entries; source, target and type can be written and read back.
#include "ctr.h"

TESTS(30000)
// covers: entry-registers entry-address entry-valid entry-type
CASE_ALL("source, V, target and type of each entry hold what is written")
        ENTRIES_IN_S4
        li      s5, 0
1:      addi    t0, s5, ENTRY           // write all
        csrw    siselect, t0
        la      t0, _start
        slli    t1, s5, 2
        add     t0, t0, t1
        addi    t1, t0, 1
        csrw    sireg, t1
        addi    t1, t0, 0x100
        csrw    sireg2, t1
        andi    t1, s5, 1
        addi    t1, t1, 8
        csrw    sireg3, t1
        addi    s5, s5, 1
        bltu    s5, s4, 1b
        li      s5, 0
2:      mv      a0, s5                  // then read all
        la      a1, _start
        slli    t1, s5, 2
        add     a1, a1, t1
        addi    a2, a1, 0x100
        andi    t1, s5, 1
        addi    a3, t1, 8
        li      a4, __LINE__
        call    ctr_check_entry
        addi    s5, s5, 1
        bltu    s5, s4, 2b
ENDCASE
// covers: entry-valid
CASE_ALL("V can be written 0 with the address kept or not")
        li      t0, ENTRY
        csrw    siselect, t0
        la      t0, _start
        csrw    sireg, t0
        csrr    t0, sireg
        andi    t0, t0, 1
        CHECK_EQ(t0, 0)
ENDCASE
// covers: entry-type
CASE_ALL("each transfer type of the standard holds")
        NEED(HAS_TYPE)
        li      t0, ENTRY
        csrw    siselect, t0
        .irp    type, 1, 2, 3, 4, 5, 8, 9, 10, 11, 12, 13, 14, 15
        li      t0, \type
        csrw    sireg3, t0
        csrr    t0, sireg3
        andi    t0, t0, 15
        CHECK_EQ(t0, \type)
        .endr
ENDCASE
// covers: entry-data-rest
CASE_ALL("the data word has no other bits than the type and those of the cycle count")
        li      t0, ENTRY
        csrw    siselect, t0
        li      t0, -1
        csrw    sireg3, t0
        csrr    t0, sireg3
        csrw    sireg3, x0
        li      t1, ~0xffff800f         // TYPE, CCV, CC
        and     t0, t0, t1
        CHECK_EQ(t0, 0)
ENDCASE
// covers: entry-unused
CASE_ALL("sireg4 to sireg6 read 0 and ignore writes")
        li      t0, ENTRY
        csrw    siselect, t0
        li      t0, -1
        TRY(csrw sireg4, t0)
        TRY(csrw sireg5, t0)
        TRY(csrw sireg6, t0)
        CHECK_CSR(sireg4, 0)
        CHECK_CSR(sireg5, 0)
        CHECK_CSR(sireg6, 0)
ENDCASE
// covers: entry-alone
CASE_ALL("a write of one entry leaves the others and WRPTR")
        START_M(CTL_M)
1:      j       2f
2:      j       3f
3:      j       4f
4:      HALT
        li      t0, 0x201
        csrw    siselect, t0
        la      t0, 8f + 1
        csrw    sireg, t0
        LIST
        ROW(1b, 2b, DIRJUMP)
        ROW(8f, 3b, DIRJUMP)
        ROW(3b, 4b, DIRJUMP)
        END_LIST
8:      CHECK_CSR(sctrstatus, 3)
ENDCASE
// covers: recorded-whole
CASE_ALL("a record replaces what software wrote, in all three parts")
        START_M(0)
        csrr    t0, sctrdepth           // the physical entry 0 is the last entry while WRPTR is 0
        li      t1, 16
        sll     t1, t1, t0
        addi    t1, t1, 0x1ff
        csrw    siselect, t1
        la      t0, _start
        csrw    sireg, t0
        csrw    sireg2, t0
        li      t0, 6
        csrw    sireg3, t0
        csrsi   mctrctl, CTL_M
        LIST
1:      jal     x1, 2f
        ROW(1b, 2f, DIRCALL)
2:      HALT
        END_LIST
ENDCASE
CASE_ALL("so does a record without source or target")
        START(CTL_M, 0, 8f)
        csrr    t0, sctrdepth           // the two physical entries to come are the last two
        li      t1, 16
        sll     t1, t1, t0
        addi    t1, t1, 0x1fe
        csrw    siselect, t1
        la      t0, _start + 1
        csrw    sireg, t0
        csrw    sireg2, t0
        addi    t1, t1, 1
        csrw    siselect, t1
        csrw    sireg, t0
        csrw    sireg2, t0
        ENTER_U(1f)
1:      ecall
8:      LIST
        ROW(90b, 0, TRAPRET)
        ROW(0, ctr_mtrap, EXCEPTION)
        END_LIST
ENDCASE
// covers: entry-guest-select
CASE_ALL("vsireg* and vsiselect reach the same entries, and siselect is another register")
        NEED(HAS_H)
        li      t0, 0x203
        csrw    siselect, t0
        li      t0, 0x205
        csrw    vsiselect, t0
        la      t0, _start + 1
        csrw    vsireg, t0
        addi    t0, t0, 3
        csrw    vsireg2, t0
        li      t0, 9
        csrw    vsireg3, t0
        CHECK_CSR(siselect, 0x203)
        CHECK_CSR(sireg, 0)
        li      a0, 5
        la      a1, _start
        addi    a2, a1, 4
        li      a3, 9
        li      a4, __LINE__
        call    ctr_check_entry
        li      t0, 0x203
        csrw    siselect, t0            // another entry, which holds nothing
        csrr    t0, vsireg
        la      t1, _start + 1
        CHECK_REGS(t0, t1)
        CHECK_CSR(sireg, 0)
        CHECK_CSR(vsiselect, 0x205)
ENDCASE
CASE_ALL("vsiselect names the same entries as siselect, at the greatest depth")
        NEED(HAS_H)
        li      t0, 5
1:      addi    t0, t0, -1
        csrw    sctrdepth, t0
        csrr    t1, sctrdepth
        bne     t0, t1, 1b
        li      t1, 16
        sll     s4, t1, t0
        li      s5, 0
        la      t2, _start + 1
2:      addi    t0, s5, ENTRY
        csrw    siselect, t0
        csrw    sireg, t2
        addi    t2, t2, 4
        addi    s5, s5, 1
        bltu    s5, s4, 2b
        li      s5, 0
        la      s3, _start + 1
3:      addi    t0, s5, ENTRY
        csrw    vsiselect, t0
        csrr    t0, vsireg
        CHECK_REGS(t0, s3)
        addi    s3, s3, 4
        addi    s5, s5, 1
        bltu    s5, s4, 3b
ENDCASE
// covers: entry-guest-view
CASE_ALL("in VS siselect and sireg are vsiselect and vsireg")
        NEED(HAS_H)
        li      t0, 0x203
        csrw    siselect, t0
        csrw    vsiselect, x0
        AFTER(8f)
        ENTER_VS(1f)
1:      li      t0, 0x204
        csrw    siselect, t0
        la      t0, _start + 1
        csrw    sireg, t0
        ecall
8:      CHECK_CSR(siselect, 0x203)
        CHECK_CSR(vsiselect, 0x204)
        li      t0, 0x204
        csrw    siselect, t0
        csrr    t0, sireg
        la      t1, _start + 1
        CHECK_REGS(t0, t1)
ENDCASE
CASE_ALL("in VS all three parts of an entry are written and read, by a select of its own")
        NEED(HAS_H)
        li      t0, ENTRY + 1
        csrw    siselect, t0
        AFTER(8f)
        ENTER_VS(1f)
1:      li      t0, ENTRY + 2
        csrw    siselect, t0
        la      t1, _start + 1
        csrw    sireg, t1
        addi    t1, t1, 7
        csrw    sireg2, t1
        li      t1, RETURN
        csrw    sireg3, t1
        csrr    s4, siselect
        csrr    s5, sireg2
        ecall
8:      CHECK_EQ(s4, ENTRY + 2)
        andi    s5, s5, -2
        la      t0, _start + 8
        CHECK_REGS(s5, t0)
        CHECK_ENTRY(2, _start, _start + 8, RETURN)
ENDCASE
// covers: entry-guest-select entry-type
CASE_ALL("vsireg, vsireg2 and vsireg3 read the parts of an entry, each its own")
        NEED(HAS_H)
        li      t0, ENTRY + 4
        csrw    siselect, t0
        la      t0, _start + 1
        csrw    sireg, t0
        addi    t0, t0, 0x3f
        csrw    sireg2, t0
        li      t0, INDLINK
        csrw    sireg3, t0
        li      t0, ENTRY
        csrw    siselect, t0
        li      t0, ENTRY + 4
        csrw    vsiselect, t0
        csrr    t0, vsireg
        la      t1, _start + 1
        CHECK_REGS(t0, t1)
        csrr    t0, vsireg2
        andi    t0, t0, -2
        la      t1, _start + 0x40
        CHECK_REGS(t0, t1)
        NEED(HAS_TYPE)
        csrr    t0, vsireg3
        andi    t0, t0, 15
        CHECK_EQ(t0, INDLINK)
ENDCASE
// covers: entry-unused entry-alone
CASE_ALL("a write of sireg4 to sireg6, or of vsireg4 to vsireg6, leaves the entry")
        la      s5, _start + 1
        li      t0, ENTRY + 2
        csrw    siselect, t0
        csrw    sireg, s5
        csrw    sireg2, s5
        li      t0, DIRCALL
        csrw    sireg3, t0
        li      t0, -1
        TRY(csrw sireg4, t0)
        TRY(csrw sireg5, t0)
        TRY(csrw sireg6, t0)
        CHECK_ENTRY(2, _start, _start, DIRCALL)
        NEED(HAS_H)
        li      t0, ENTRY + 2
        csrw    vsiselect, t0
        li      t0, -1
        TRY(csrw vsireg4, t0)
        TRY(csrw vsireg5, t0)
        TRY(csrw vsireg6, t0)
        CHECK_ENTRY(2, _start, _start, DIRCALL)
        CHECK_CSR(vsireg4, 0)
        CHECK_CSR(vsireg5, 0)
        CHECK_CSR(vsireg6, 0)
ENDCASE
// covers: entry-alone
CASE_ALL("a write of one part of an entry leaves its other two")
        li      t0, ENTRY + 1
        csrw    siselect, t0
        la      t0, _start + 1
        csrw    sireg, t0
        la      t0, ctr_mtrap
        csrw    sireg2, t0
        li      t0, SWAP
        csrw    sireg3, t0
        la      t0, ctr_strap + 1
        csrw    sireg, t0
        CHECK_ENTRY(1, ctr_strap, ctr_mtrap, SWAP)
        la      t0, _start
        csrw    sireg2, t0
        CHECK_ENTRY(1, ctr_strap, _start, SWAP)
        li      t0, INDCALL
        csrw    sireg3, t0
        CHECK_ENTRY(1, ctr_strap, _start, INDCALL)
ENDCASE
// covers: entry-valid entry-registers
CASE_ALL("CSRRS and CSRRC set and clear V, and read the old word")
        li      t0, ENTRY
        csrw    siselect, t0
        la      t0, _start
        csrw    sireg, t0
        csrrsi  s4, sireg, 1
        csrrci  s5, sireg, 1
        andi    s4, s4, 1
        CHECK_EQ(s4, 0)
        andi    s5, s5, 1
        CHECK_EQ(s5, 1)
        csrr    t0, sireg
        andi    t0, t0, 1
        CHECK_EQ(t0, 0)
ENDCASE
// covers: entry-registers
CASE_ALL("siselect and vsiselect hold the select of each entry")
        li      s5, ENTRY
1:      csrw    siselect, s5
        csrr    t0, siselect
        CHECK_REGS(t0, s5)
        addi    s5, s5, 1
        li      t0, ENTRY + 256
        bltu    s5, t0, 1b
        NEED(HAS_H)
        li      t0, ENTRY
        csrw    siselect, t0
        li      s5, ENTRY
2:      csrw    vsiselect, s5
        csrr    t0, vsiselect
        CHECK_REGS(t0, s5)
        addi    s5, s5, 1
        li      t0, ENTRY + 256
        bltu    s5, t0, 2b
        CHECK_CSR(siselect, ENTRY)
ENDCASE
// covers: saved
CASE_ALL("what is saved by registers and restored by them is the same list, and goes on as it would have")
        START_M(CTL_M)
        LIST
1:      j       2f
        ROW(1b, 2f, DIRJUMP)
2:      jal     x1, 3f
        ROW(2b, 3f, DIRCALL)
3:      HALT
        ENTRIES_IN_S4
        csrr    s3, sctrstatus
        la      s1, ctr_scratch         // 16 entries at most of those that there are
        li      s5, 0
4:      addi    t0, s5, ENTRY
        csrw    siselect, t0
        csrr    t0, sireg
        sd      t0, 0(s1)
        csrr    t0, sireg2
        sd      t0, 8(s1)
        csrr    t0, sireg3
        sd      t0, 16(s1)
        addi    s1, s1, 24
        addi    s5, s5, 1
        li      t0, 16
        bltu    s5, t0, 4b
        csrwi   sctrstatus, 7           // others use the records
        csrsi   mctrctl, CTL_M
        j       5f
5:      jal     x1, 6f
6:      HALT
        SCTRCLR
        csrw    sctrstatus, s3          // WRPTR before the entries, which are counted from it
        la      s1, ctr_scratch
        li      s5, 0
7:      addi    t0, s5, ENTRY
        csrw    siselect, t0
        ld      t0, 0(s1)
        csrw    sireg, t0
        ld      t0, 8(s1)
        csrw    sireg2, t0
        ld      t0, 16(s1)
        csrw    sireg3, t0
        addi    s1, s1, 24
        addi    s5, s5, 1
        li      t0, 16
        bltu    s5, t0, 7b
        csrsi   mctrctl, CTL_M
8:      j       9f
        ROW(8b, 9f, DIRJUMP)
9:      HALT
        END_LIST
        CHECK_CSR(sctrstatus, 3)
ENDCASE
ENDTESTS
