// A branch that is taken is recorded, one that isn't only where NTBREN asks for it; and no branch where TKBRINH is set.
#include "ctr.h"

#define YES(op, a, b) 1: op a, b, 2f; nop; 2: ROW(1b, 2b, TAKEN)
#define NO(op, a, b)  1: op a, b, 3f; 2: nop; 3: ROW(1b, 2b, NOTTAKEN)

// Each condition both ways; x6 is below x7 as a signed number and above it as an unsigned one.
        .macro  branches
        li      x6, -1
        li      x7, 1
        YES(beq, x0, x0)
        NO(beq, x6, x7)
        YES(bne, x6, x7)
        NO(bne, x6, x6)
        YES(blt, x6, x7)
        NO(blt, x7, x6)
        YES(bge, x7, x6)
        NO(bge, x6, x7)
        YES(bltu, x7, x6)
        NO(bltu, x6, x7)
        YES(bgeu, x6, x7)
        NO(bgeu, x7, x6)
        .endm

TESTS(15000)
// covers: type-branch filter-not-taken
CASE_ALL("taken branches are recorded, others aren't")
        START_M(CTL_M)
        LIST
        branches
        HALT
        END_LIST_WITHOUT(1 << NOTTAKEN)
ENDCASE
// covers: branch-target filter-not-taken
CASE_ALL("NTBREN records branches that aren't taken too")
        START_M(CTL_M | CTL_NTBREN)
        LIST
        branches
        HALT
        END_LIST
ENDCASE
// covers: filter-own
CASE_ALL("TKBRINH leaves taken branches out")
        START_M(CTL_M | CTL_TKBRINH)
        LIST
        branches
        HALT
        END_LIST_WITHOUT(1 << TAKEN | 1 << NOTTAKEN)
ENDCASE
CASE_ALL("NTBREN and TKBRINH record branches that aren't taken alone")
        START_M(CTL_M | CTL_NTBREN | CTL_TKBRINH)
        LIST
        branches
        HALT
        END_LIST_WITHOUT(1 << TAKEN)
ENDCASE
// covers: type-branch branch-target
CASE_ALL("a branch backward, and one to itself plus 4")
        START_M(CTL_M | CTL_NTBREN)
        LIST
6:      j       2f
        ROW(6b, 2f, DIRJUMP)
1:      beq     x0, x0, 3f
        nop
2:      beq     x0, x0, 1b
        ROW(2b, 1b, TAKEN)
        ROW(1b, 3f, TAKEN)
3:      beq     x0, x0, 4f
4:      bne     x0, x0, 5f
5:      ROW(3b, 4b, TAKEN)
        ROW(4b, 5b, NOTTAKEN)
        HALT
        END_LIST
ENDCASE
CASE_ALL("a branch far forward and far back")
        START_M(CTL_M)
        LIST
1:      beq     x0, x0, 3f
        ROW(1b, 3f, TAKEN)
2:      j       4f
        .zero   4000
3:      beq     x0, x0, 2b
        ROW(3b, 2b, TAKEN)
        ROW(2b, 4f, DIRJUMP)
4:      HALT
        END_LIST
ENDCASE
ENDTESTS
