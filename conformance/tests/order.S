// Entry 0 is the youngest and lies just before WRPTR; each record adds 1 to WRPTR modulo the depth; a full buffer
// loses its oldest entry. At each depth that there is.
#include "ctr.h"

#define JUMPS 520
        .text
        .balign 4
jumps:  .rept JUMPS
        j       1f
1:
        .endr
jumps_end:
        HALT
        jr      s5

// Runs the last s4 of the jumps, from WRPTR s3 on, at the depth of code s2. The jump to them is recorded too.
run:    li      a0, CTL_M
        li      a1, 0
        la      a2, ctr_unexpected
        mv      s1, ra
        call    ctr_prepare
        mv      ra, s1
        csrw    sctrstatus, s3
        slli    t0, s4, 2
        la      t1, jumps_end
        sub     t1, t1, t0
        csrw    mctrctl, a0
from:   jr      t1

// Compares: s4 jumps and the one before them, at depth s2.
compare:
        mv      s11, ra
        li      t0, 16
        sll     s10, t0, s2             // the depth
        li      s9, 0
1:      mv      a0, s9                  // entry i ends 4 * i before the end
        la      a2, jumps_end
        slli    t0, s9, 2
        sub     a2, a2, t0
        addi    a1, a2, -4
        li      a3, DIRJUMP
        li      a4, __LINE__
        bltu    s9, s4, 2f
        la      a1, from                // the oldest is the indirect jump
        li      a3, INDJUMP
        bgtu    s9, s4, 3f
2:      call    ctr_check_entry
        addi    s9, s9, 1
        bltu    s9, s10, 1b
3:      bgeu    s9, s10, 5f             // what is left holds no transfer
        addi    t0, s9, ENTRY
        csrw    siselect, t0
        csrr    t0, sireg
        andi    t0, t0, 1
        CHECK_EQ(t0, 0)
        addi    s9, s9, 1
        j       3b
5:      add     t1, s3, s4              // WRPTR
        addi    t1, t1, 1
        addi    t2, s10, -1
        and     t1, t1, t2
        csrr    t0, sctrstatus
        CHECK_REGS(t0, t1)
        jr      s11

// With `count` jumps from `pointer` on, at depth 16 << code; -1 for a number means one less than the depth.
#define AT(code, count, pointer) \
        NEED(1 << code); li s2, code; csrw sctrdepth, s2; SCTRCLR; \
        li s4, count; li s3, pointer; la s5, 6f; j run; \
6:      call compare

TESTS(140000)
// covers: recorded-order recorded-pointer entry-numbers
CASE_ALL("depth 16, a few")
        AT(0, 5, 0)
ENDCASE
// covers: recorded-order recorded-pointer recorded-lost
CASE_ALL("depth 16, one less than full, full, one more, two more")
        AT(0, 14, 0)
        AT(0, 15, 0)
        AT(0, 16, 0)
        AT(0, 17, 0)
ENDCASE
CASE_ALL("depth 16, from other places of WRPTR")
        AT(0, 3, 1)
        AT(0, 3, 14)
        AT(0, 3, 15)
        AT(0, 40, 9)
ENDCASE
CASE_ALL("depth 32")
        AT(1, 20, 30)
        AT(1, 31, 0)
        AT(1, 32, 31)
        AT(1, 70, 5)
ENDCASE
CASE_ALL("depth 64")
        AT(2, 40, 60)
        AT(2, 63, 0)
        AT(2, 64, 63)
        AT(2, 130, 5)
ENDCASE
CASE_ALL("depth 128")
        AT(3, 100, 100)
        AT(3, 127, 0)
        AT(3, 128, 127)
        AT(3, 260, 5)
ENDCASE
CASE_ALL("depth 256")
        AT(4, 200, 250)
        AT(4, 255, 0)
        AT(4, 256, 255)
        AT(4, 519, 5)
ENDCASE
// covers: entry-numbers pointer-holds
CASE_ALL("a write of WRPTR turns the entries")
        START_M(CTL_M)
1:      j       2f
2:      j       3f
3:      j       4f
4:      HALT
        li      t0, 2                   // one back: the middle one is entry 0, the youngest the last entry
        csrw    sctrstatus, t0
        CHECK_ENTRY(0, 2b, 3b, DIRJUMP)
        CHECK_ENTRY(1, 1b, 2b, DIRJUMP)
        ENTRIES_IN_S4
        addi    s4, s4, -1
        CHECK_ENTRY_AT(s4, 3b, 4b, DIRJUMP)
        csrwi   sctrstatus, 3
        LIST
        ROW(1b, 2b, DIRJUMP)
        ROW(2b, 3b, DIRJUMP)
        ROW(3b, 4b, DIRJUMP)
        END_LIST
ENDCASE
// covers: entry-numbers recorded-pointer
CASE_ALL("a record after a write of WRPTR goes to where it points")
        START_M(CTL_M)
1:      j       2f
2:      j       3f
3:      csrwi   sctrstatus, 1           // the second entry is written over
4:      j       5f
5:      HALT
        LIST
        ROW(1b, 2b, DIRJUMP)
        ROW(4b, 5b, DIRJUMP)
        END_LIST
        CHECK_CSR(sctrstatus, 2)
ENDCASE
// covers: recorded-order recorded-pointer
CASE_ALL("WRPTR after each record, all the way round")
        GREATEST_DEPTH
        START_M(CTL_M)
        li      s5, 0                   // how many jumps there were
        li      s1, 0                   // how often WRPTR wasn't what it should be
        addi    s3, s4, 3
1:      j       2f
2:      addi    s5, s5, 1
        csrr    t0, sctrstatus          // each round has a jump and, but for the last, a branch back
        slli    t1, s5, 1
        addi    t1, t1, -1
        addi    t2, s4, -1
        and     t1, t1, t2
        xor     t0, t0, t1
        snez    t0, t0
        add     s1, s1, t0
        bltu    s5, s3, 1b
        HALT
        CHECK_EQ(s1, 0)
ENDCASE
// covers: registers-apart recorded-order
CASE_ALL("a write of a control leaves the entries")
        START_M(CTL_M)
        LIST
1:      j       2f
        ROW(1b, 2f, DIRJUMP)
2:      csrci   mctrctl, CTL_M
        csrsi   mctrctl, CTL_M
3:      jal     x1, 4f
        ROW(3b, 4f, DIRCALL)
4:      HALT
        csrw    mctrctl, x0
        csrsi   sctrctl, CTL_S
        csrci   sctrctl, CTL_S
        END_LIST
        CHECK_CSR(sctrstatus, 2)
        NEED(HAS_H)
        START_M(CTL_M)
        LIST
1:      j       2f
        ROW(1b, 2f, DIRJUMP)
2:      li      t0, CTL_VS | CTL_VU
        csrw    vsctrctl, t0
        csrw    vsctrctl, x0
        HALT
        END_LIST
        CHECK_CSR(sctrstatus, 1)
ENDCASE
ENDTESTS
