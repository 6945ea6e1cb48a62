// Cases whose expectations are wrong, each in one way: on a right implementation they fail so.
#include "ctr.h"

TESTS(20000)
// covers: recorded-source
CASE("another source")
        START_M(CTL_M)
        LIST
1:      j       2f
        ROW(2f, 2f, DIRJUMP)
2:      HALT
        END_LIST
ENDCASE
CASE("another target, and another type")
        START_M(CTL_M)
        LIST
1:      j       2f
        ROW(1b, 3f, DIRCALL)
2:      nop
3:      HALT
        END_LIST
ENDCASE
CASE("a row too many")
        START_M(CTL_M)
        LIST
        HALT
        ROW(_start, _start, DIRJUMP)
        END_LIST
ENDCASE
CASE("a row that is missing")
        START_M(CTL_M)
        LIST
1:      j       2f
2:      HALT
        END_LIST
ENDCASE
CASE("a value")
        CHECK_CSR(sctrstatus, 7)
        li      s4, 2
        li      s5, 3
        CHECK_AT(s5, s4, 1)
ENDCASE
CASE("a trap that nothing waits for")
        .word   0
        CHECK_CSR(sctrstatus, 7)        // isn't reached
ENDCASE
CASE("a failure, and then a skip")
        CHECK_CSR(sctrstatus, 1)
        NEED(HAS_STATEEN)
ENDCASE
CASE("a case after one that ended early is judged by itself")
        CHECK_CSR(sctrstatus, 0)
ENDCASE
CASE("a skip")
        NEED(HAS_STATEEN)
ENDCASE
CASE("more failures than the block holds")
        li      s5, 30
1:      CHECK_CSR(sctrstatus, 5)
        addi    s5, s5, -1
        bnez    s5, 1b
ENDCASE
CASE("a failure that the block has no room for")
        CHECK_CSR(sctrstatus, 5)
ENDCASE
ENDTESTS
