// Return-stack emulation: a call pushes, a return takes the youngest entry away, a co-routine swap replaces it, and
// nothing else is recorded.
#include "ctr.h"

#define CALL(label)      jal x1, label
#define RETURN_TO(label) la x5, label; 94: jalr x0, 0(x5)


TESTS(25000)
// covers: emulation-call
CASE_ALL("calls are recorded, by both kinds")
        START_M(CTL_M | CTL_RASEMU)
        LIST
1:      jal     x1, 2f
        ROW(1b, 2f, DIRCALL)
2:      la      x6, 3f
4:      jalr    x5, 0(x6)
        ROW(4b, 3f, INDCALL)
3:      jal     x5, 5f
        ROW(3b, 5f, DIRCALL)
5:      HALT
        END_LIST
        CHECK_CSR(sctrstatus, 3)
ENDCASE
// covers: emulation-return
CASE_ALL("a return takes the youngest entry away")
        START_M(CTL_M | CTL_RASEMU)
        LIST
1:      CALL(2f)
        ROW(1b, 2f, DIRCALL)
2:      CALL(3f)
        ROW(2b, 3f, DIRCALL)
3:      CALL(4f)
4:      RETURN_TO(5f)
5:      HALT
        END_LIST
        CHECK_CSR(sctrstatus, 2)
ENDCASE
CASE_ALL("a call after a return takes the place of the entry that went")
        START_M(CTL_M | CTL_RASEMU)
        LIST
1:      CALL(2f)
        ROW(1b, 2f, DIRCALL)
2:      CALL(3f)
3:      RETURN_TO(4f)
4:      CALL(5f)
        ROW(4b, 5f, DIRCALL)
5:      HALT
        END_LIST
        CHECK_CSR(sctrstatus, 2)
ENDCASE
// covers: emulation-swap
CASE_ALL("a co-routine swap replaces the youngest entry and leaves WRPTR")
        START_M(CTL_M | CTL_RASEMU)
        LIST
1:      CALL(2f)
        ROW(1b, 2f, DIRCALL)
2:      CALL(3f)
3:      la      x1, 5f
4:      jalr    x5, 0(x1)
        ROW(4b, 5f, SWAP)
5:      HALT
        END_LIST
        CHECK_CSR(sctrstatus, 2)
ENDCASE
CASE_ALL("the other co-routine swap, from x5 to x1")
        START_M(CTL_M | CTL_RASEMU)
        LIST
1:      CALL(2f)
2:      la      x5, 4f
3:      jalr    x1, 0(x5)
        ROW(3b, 4f, SWAP)
4:      HALT
        END_LIST
        CHECK_CSR(sctrstatus, 1)
ENDCASE
// covers: emulation-others
CASE_ALL("jumps, branches and other links are no calls")
        START_M(CTL_M | CTL_RASEMU | CTL_NTBREN)
        LIST
1:      CALL(2f)
        ROW(1b, 2f, DIRCALL)
2:      beq     x0, x0, 3f
3:      bne     x0, x0, 4f
4:      j       5f
5:      jal     x7, 6f
6:      la      x6, 7f
        jalr    x0, 0(x6)
7:      la      x6, 8f
        jalr    x7, 0(x6)
8:      HALT
        END_LIST
        CHECK_CSR(sctrstatus, 1)
ENDCASE
// covers: emulation-empty
CASE_ALL("a return of an empty stack leaves it empty, and WRPTR wraps below 0")
        START_M(CTL_M | CTL_RASEMU)
        RETURN_TO(1f)
1:      HALT
        LIST
        END_LIST
        csrr    t0, sctrdepth
        li      t1, 16
        sll     t1, t1, t0
        addi    t1, t1, -1
        csrr    t0, sctrstatus
        CHECK_REGS(t0, t1)
ENDCASE
CASE_ALL("a co-routine swap on an empty stack is recorded and leaves WRPTR")
        START_M(CTL_M | CTL_RASEMU)
        LIST
        la      x5, 2f
1:      jalr    x1, 0(x5)
        ROW(1b, 2f, SWAP)
2:      HALT
        END_LIST
        CHECK_CSR(sctrstatus, 0)
ENDCASE
// covers: emulation-stack recorded-lost
CASE_ALL("more calls than there are entries: the oldest are lost and don't come back")
        START_M(CTL_M | CTL_RASEMU)
        ENTRIES_IN_S4
        addi    t2, s4, 2
        mv      t3, t2
1:      jal     x1, 2f                  // depth + 2 calls (the branch isn't recorded)
2:      addi    t2, t2, -1
        bnez    t2, 1b
        la      x5, 4f
3:      jalr    x0, 0(x5)               // depth + 1 returns
4:      addi    s4, s4, -1
        bgez    s4, 3b
        HALT
        LIST
        END_LIST
        CHECK_CSR(sctrstatus, 1)
ENDCASE
CASE_ALL("as many returns as entries but one leave the oldest that is there")
        START_M(CTL_M | CTL_RASEMU)
        LIST
        ENTRIES_IN_S4
        jal     x1, 1f                  // lost
1:      jal     x1, 5f
        ROW(1b, 5f, DIRCALL)
5:      addi    t2, s4, -1
6:      jal     x1, 2f
2:      addi    t2, t2, -1
        bnez    t2, 6b
        addi    s4, s4, -2
        la      x5, 4f
3:      jalr    x0, 0(x5)
4:      addi    s4, s4, -1
        bgez    s4, 3b
        HALT
        END_LIST
ENDCASE
// covers: emulation-filters
CASE_ALL("filter bits don't count")
        la      t0, begin_signature
        ld      a0, R_MCTRCTL(t0)
        li      a1, CTL_JUMPS
        and     a0, a0, a1
        ori     a0, a0, CTL_M | CTL_RASEMU
        li      a1, 0
        START_REGS(ctr_unexpected)
        LIST
1:      CALL(2f)
        ROW(1b, 2f, DIRCALL)
2:      la      x6, 4f
3:      jalr    x1, 0(x6)
        ROW(3b, 4f, INDCALL)
4:      CALL(5f)
5:      RETURN_TO(6f)
6:      CALL(7f)
7:      la      x1, 9f
8:      jalr    x5, 0(x1)
        ROW(8b, 9f, SWAP)
9:      HALT
        END_LIST
ENDCASE
// covers: emulation-traps
CASE_ALL("traps and returns from them aren't recorded")
        START(CTL_M | CTL_U | CTL_RASEMU, 0, 8f)
        ENTER_U(1f)
1:      CALL(2f)
2:      ecall
8:      LIST
        ROW(1b, 2b, DIRCALL)
        END_LIST
        CHECK_CSR(sctrstatus, 1)        // neither the MRET nor the trap moved WRPTR
ENDCASE
CASE_ALL("nor is an external trap")
        START(CTL_U | CTL_RASEMU | CTL_STE | CTL_MTE, 0, 8f)
        ENTER_U(1f)
1:      CALL(2f)
2:      ecall
8:      LIST
        ROW(1b, 2b, DIRCALL)
        END_LIST
ENDCASE
// covers: emulation-mode
CASE("a return in a mode that isn't enabled takes nothing away")
        START(CTL_S | CTL_RASEMU, 0, 8f)
        ENTER_S(1f)
1:      CALL(2f)
2:      SRET_TO_U(3f)
3:      RETURN_TO(4f)
4:      CALL(5f)
5:      ecall
8:      LIST
        ROW(1b, 2b, DIRCALL)
        END_LIST
ENDCASE
// covers: emulation-mode guest-emulation
CASE_ALL("VS by vsctrctl.RASEMU")
        NEED(HAS_H)
        START(0, CTL_VS | CTL_RASEMU, 8f)
        ENTER_VS(1f)
1:      CALL(2f)
2:      CALL(3f)
3:      RETURN_TO(4f)
4:      j       5f
5:      ecall
8:      LIST
        ROW(1b, 2b, DIRCALL)
        END_LIST
ENDCASE
CASE_OR("mctrctl.RASEMU isn't that of VS", "sctrctl.RASEMU isn't that of VS")
        NEED(HAS_H)
        START(CTL_RASEMU, CTL_VS, 8f)
        ENTER_VS(1f)
1:      CALL(2f)
2:      RETURN_TO(3f)
3:      ecall
8:      LIST
        ROW(1b, 2b, DIRCALL)
        ROW(94b, 3b, RETURN)
        END_LIST
ENDCASE
// covers: emulation-return emulation-mode
CASE_ALL("switched on over plain records: a return takes the youngest of any type away")
        NEED_CTL(CTL_RASEMU, 0)
        START_M(CTL_M)
        LIST
1:      j       2f
        ROW(1b, 2f, DIRJUMP)
2:      j       3f
3:      li      t0, CTL_RASEMU
        csrs    mctrctl, t0
        RETURN_TO(4f)
4:      HALT
        END_LIST
ENDCASE
// covers: emulation-traps
CASE("a trap into S and its SRET leave the stack, and the calls that were made before")
        DELEGATE(1 << ECALL_U, 0)
        la      t0, handler
        csrw    stvec, t0
        START(CTL_S | CTL_U | CTL_RASEMU, 0, 8f)
        ENTER_U(1f)
        .balign 4
handler:
        csrr    t0, sepc                // behind the ECALL
        addi    t0, t0, 4
        csrw    sepc, t0
        sret
1:      CALL(2f)
2:      ecall
3:      CALL(4f)
4:      CALL(5f)
5:      ecall
        RETURN_TO(6f)
6:      .word   0
8:      LIST
        ROW(1b, 2b, DIRCALL)
        ROW(3b, 4b, DIRCALL)
        END_LIST
        CHECK_CSR(sctrstatus, 2)
ENDCASE
// covers: emulation-others
CASE_ALL("branches and jumps leave a stack of two as it is, and WRPTR")
        START_M(CTL_M | CTL_RASEMU)
        LIST
1:      CALL(2f)
        ROW(1b, 2f, DIRCALL)
2:      CALL(3f)
        ROW(2b, 3f, DIRCALL)
3:      j       4f
4:      beq     x0, x0, 5f
5:      jal     x6, 6f
6:      la      x7, 7f
        jalr    x6, 0(x7)
7:      la      x7, 9f
        jalr    x0, 0(x7)
9:      HALT
        END_LIST
        CHECK_CSR(sctrstatus, 2)
ENDCASE
// covers: emulation-return
CASE_ALL("a return by x1, one by x5, and one that links to another register")
        START_M(CTL_M | CTL_RASEMU)
        LIST
1:      CALL(2f)
        ROW(1b, 2f, DIRCALL)
2:      CALL(3f)
3:      CALL(4f)
4:      CALL(5f)
5:      la      x1, 6f
        jalr    x0, 0(x1)
6:      la      x5, 7f
        jalr    x0, 0(x5)
7:      la      x1, 9f
        jalr    x6, 0(x1)               // rd is no link register, so it is a return
9:      HALT
        END_LIST
        CHECK_CSR(sctrstatus, 1)
ENDCASE
// covers: emulation-call emulation-swap
CASE_ALL("JALR by the link register that it writes is a call, not a swap")
        START_M(CTL_M | CTL_RASEMU)
        LIST
1:      CALL(2f)
        ROW(1b, 2f, DIRCALL)
2:      la      x1, 4f
3:      jalr    x1, 0(x1)
        ROW(3b, 4f, INDCALL)
4:      la      x5, 6f
5:      jalr    x5, 0(x5)
        ROW(5b, 6f, INDCALL)
6:      HALT
        END_LIST
        CHECK_CSR(sctrstatus, 3)
ENDCASE
// covers: emulation-swap
CASE_ALL("a swap as the oldest entry of a full buffer, and a second swap over the first")
        START_M(CTL_M | CTL_RASEMU)
        LIST
1:      CALL(2f)
2:      la      x5, 4f
3:      jalr    x1, 0(x5)
4:      la      x1, 6f
5:      jalr    x5, 0(x1)
        ROW(5b, 6f, SWAP)
6:      CALL(7f)
        ROW(6b, 7f, DIRCALL)
7:      HALT
        END_LIST
        CHECK_CSR(sctrstatus, 2)
ENDCASE
// covers: emulation-stack
CASE_ALL("the calls that haven't returned, the youngest first")
        START_M(CTL_M | CTL_RASEMU)     // calls to a, b and c, a return, a swap to d, a call to e, and its return
        LIST
1:      CALL(2f)                        // a
        ROW(1b, 2f, DIRCALL)
2:      CALL(3f)                        // b
3:      CALL(4f)                        // c
4:      RETURN_TO(5f)
5:      la      x5, 7f
6:      jalr    x1, 0(x5)               // d takes the place of b
        ROW(6b, 7f, SWAP)
7:      CALL(9f)                        // e
9:      RETURN_TO(10f)
10:     HALT
        END_LIST
        CHECK_CSR(sctrstatus, 2)
ENDCASE
// covers: emulation-empty
CASE_ALL("calls after returns of an empty stack")
        START_M(CTL_M | CTL_RASEMU)
        LIST
        RETURN_TO(1f)
1:      RETURN_TO(2f)
2:      CALL(3f)
        ROW(2b, 3f, DIRCALL)
3:      HALT
        END_LIST
        ENTRIES_IN_S4
        addi    s4, s4, -1
        csrr    t0, sctrstatus
        CHECK_REGS(t0, s4)
ENDCASE
// covers: emulation-mode guest-emulation
CASE_OR("VU by vsctrctl.RASEMU, whatever mctrctl.RASEMU says", "VU by vsctrctl.RASEMU, whatever sctrctl.RASEMU says")
        NEED(HAS_H)
        START(0, CTL_VU | CTL_RASEMU, 8f)
        ENTER_VU(1f)
1:      CALL(2f)
2:      CALL(3f)
3:      RETURN_TO(4f)
4:      j       5f
5:      ecall
8:      LIST
        ROW(1b, 2b, DIRCALL)
        END_LIST
        START(CTL_RASEMU, CTL_VU, 8f)
        ENTER_VU(1f)
1:      CALL(2f)
2:      RETURN_TO(3f)
3:      ecall
8:      LIST
        ROW(1b, 2b, DIRCALL)
        ROW(94b, 3b, RETURN)
        END_LIST
ENDCASE
// covers: emulation-mode
CASE("S and U by mctrctl.RASEMU, whatever vsctrctl.RASEMU says")
        NEED(HAS_H)
        START(CTL_S | CTL_U | CTL_RASEMU, 0, 8f)
        ENTER_S(1f)
1:      CALL(2f)
2:      CALL(3f)
3:      RETURN_TO(4f)
4:      SRET_TO_U(5f)
5:      CALL(6f)
6:      j       7f
7:      ecall
8:      LIST
        ROW(1b, 2b, DIRCALL)
        ROW(5b, 6b, DIRCALL)
        END_LIST
        CHECK_CSR(sctrstatus, 2)
        START(CTL_S, CTL_VS | CTL_RASEMU, 8f)
        ENTER_S(1f)
1:      CALL(2f)
2:      RETURN_TO(3f)
3:      ecall
8:      LIST
        ROW(1b, 2b, DIRCALL)
        ROW(94b, 3b, RETURN)
        END_LIST
ENDCASE
// covers: guest-emulation emulation-traps
CASE_ALL("under vsctrctl.RASEMU neither a return into the guest nor a trap out of it is recorded")
        NEED(HAS_H)
        START(CTL_M, CTL_VS | CTL_RASEMU, 8f)
        ENTER_VS(1f)
1:      CALL(2f)
2:      ecall
8:      LIST
        ROW(1b, 2b, DIRCALL)
        END_LIST
        CHECK_CSR(sctrstatus, 1)
ENDCASE
ENDTESTS
