// A jump is recorded with its own address, the address that it goes to, and the type that its registers give it.
#include "ctr.h"

// JAL with this rd, and its row.
        .macro  jal_row rd
1:      jal     x\rd, 2f
2:
        .if \rd == 1 || \rd == 5
        ROW(1b, 2b, DIRCALL)
        .elseif \rd == 0
        ROW(1b, 2b, DIRJUMP)
        .else
        ROW(1b, 2b, DIRLINK)
        .endif
        .endm

// JALR with these registers, and its row.
        .macro  jalr_row rd, rs
        la      x\rs, 2f
1:      jalr    x\rd, 0(x\rs)
2:
        .if \rd == 1 || \rd == 5
        .if (\rs == 1 || \rs == 5) && \rs != \rd
        ROW(1b, 2b, SWAP)
        .else
        ROW(1b, 2b, INDCALL)
        .endif
        .elseif \rs == 1 || \rs == 5
        ROW(1b, 2b, RETURN)
        .elseif \rd == 0
        ROW(1b, 2b, INDJUMP)
        .else
        ROW(1b, 2b, INDLINK)
        .endif
        .endm

// JALR with this rd and every rs but x0.
        .macro  jalr_rows rd
        START_M(CTL_M)
        LIST
        .irp    rs, 1, 2, 3, 4, 5, 6, 7, 8, 9, 10, 11, 12, 13, 14, 15
        jalr_row \rd, \rs
        .endr
        HALT
        li      s7, 0
        END_LIST
        START_M(CTL_M)
        LIST
        .irp    rs, 16, 17, 18, 19, 20, 21, 22, 23, 24, 25, 26, 27, 28, 29, 30, 31
        jalr_row \rd, \rs
        .endr
        HALT
        li      s7, 0
        END_LIST
        .endm

TESTS(100000)
// covers: type-direct
CASE_ALL("JAL is a direct call, jump or other jump by its rd")
        START_M(CTL_M)
        LIST
        .irp    rd, 0, 1, 2, 3, 4, 5, 6, 7, 8, 9, 10, 11, 12, 13, 14, 15
        jal_row \rd
        .endr
        HALT
        END_LIST
        START_M(CTL_M)
        LIST
        .irp    rd, 16, 17, 18, 19, 20, 21, 22, 23, 24, 25, 26, 27, 28, 29, 30, 31
        jal_row \rd
        .endr
        HALT
        li      s7, 0
        END_LIST
ENDCASE
// covers: type-indirect
CASE_ALL("JALR with rd x0 is an indirect jump or a return")
        jalr_rows 0
ENDCASE
CASE_ALL("JALR with rd x1 is an indirect call, or a swap from x5")
        jalr_rows 1
ENDCASE
CASE_ALL("JALR with rd x5 is an indirect call, or a swap from x1")
        jalr_rows 5
ENDCASE
CASE_ALL("JALR with another rd is another jump with linkage, or a return")
        .irp    rd, 2, 3, 4, 6, 7, 8, 9, 10, 11, 12, 13, 14, 15, 16, 17, 18, 19, 20, 21, 22, 23, 24, 25, 26, 27, 28, 29, 30, 31
        jalr_rows \rd
        .endr
ENDCASE
// covers: recorded-source recorded-target
CASE_ALL("jumps backward and with an offset")
        START_M(CTL_M)
        LIST
1:      j       4f
        ROW(1b, 4f, DIRJUMP)
2:      jal     x1, 5f
3:      j       6f
4:      j       2b
        ROW(4b, 2b, DIRJUMP)
        ROW(2b, 5f, DIRCALL)
5:      la      x6, 3b + 8
7:      jalr    x0, -8(x6)
        ROW(7b, 3b, INDJUMP)
        ROW(3b, 6f, DIRJUMP)
6:      HALT
        END_LIST
ENDCASE
CASE_ALL("the target of JALR has bit 0 cleared")
        START_M(CTL_M)
        LIST
        la      x6, 2f + 1
1:      jalr    x1, 0(x6)
        ROW(1b, 2f, INDCALL)
2:      la      x6, 4f
3:      jalr    x0, 1(x6)
        ROW(3b, 4f, INDJUMP)
4:      HALT
        END_LIST
ENDCASE
CASE_ALL("JALR by the register that it writes: the target is that of the old value")
        START_M(CTL_M)
        LIST
        la      x1, 2f
1:      jalr    x1, 0(x1)
        ROW(1b, 2f, INDCALL)
2:      la      x7, 4f
3:      jalr    x7, 0(x7)
        ROW(3b, 4f, INDLINK)
4:      HALT
        END_LIST
ENDCASE
CASE_ALL("the longest jumps that fit here, forward and back")
        START_M(CTL_M)
        LIST
1:      jal     x1, 3f
        ROW(1b, 3f, DIRCALL)
2:      j       4f
        .zero   40000
3:      jal     x0, 2b
        ROW(3b, 2b, DIRJUMP)
        ROW(2b, 4f, DIRJUMP)
4:      HALT
        END_LIST
ENDCASE
// covers: recorded-target trap-source
CASE_ALL("a jump out of memory: its target, and the exception of the fetch there")
        NEED(HAS_NOWHERE)
        START(CTL_M | CTL_U, 0, 8f)
        la      s5, ctr_nowhere
        ld      s5, 0(s5)
        ENTER_U(1f)
1:      jalr    x1, 0(s5)
8:      li      a0, 1
        la      a1, 1b
        mv      a2, s5
        li      a3, INDCALL
        li      a4, __LINE__
        call    ctr_check_entry
        li      a0, 0
        mv      a1, s5
        la      a2, ctr_mtrap
        li      a3, EXCEPTION
        li      a4, __LINE__
        call    ctr_check_entry
ENDCASE
// covers: recorded-alone
CASE_ALL("what is no transfer leaves no record")
        START_M(CTL_M)
        nop
        la      t0, ctr_scratch
        ld      t1, 0(t0)
        sd      t1, 0(t0)
        fence
        fence.i
        csrr    t1, mscratch
        csrw    mscratch, t1
        HALT
        LIST
        END_LIST
ENDCASE
ENDTESTS
