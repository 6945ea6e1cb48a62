// sctrstatus: WRPTR holds each number below the depth and no bit above it; FROZEN can be written; the rest reads 0.
#include "ctr.h"

#define EACH_WRPTR(code) \
        NEED(1 << code); csrwi sctrdepth, code; li s4, 0; li s5, 16 << code; \
1:      csrw sctrstatus, s4; csrr t0, sctrstatus; CHECK_REGS(t0, s4); addi s4, s4, 1; bltu s4, s5, 1b; \
        li t0, -1; csrw sctrstatus, t0; csrr t0, sctrstatus; li t1, FROZEN | ((16 << code) - 1); not t1, t1; and t0, t0, t1; CHECK_EQ(t0, 0); \
        csrw sctrstatus, x0

TESTS(25000)
// covers: pointer-holds pointer-rest
CASE_ALL("WRPTR at depth 16")
        EACH_WRPTR(0)
ENDCASE
CASE_ALL("WRPTR at depth 32")
        EACH_WRPTR(1)
ENDCASE
CASE_ALL("WRPTR at depth 64")
        EACH_WRPTR(2)
ENDCASE
CASE_ALL("WRPTR at depth 128")
        EACH_WRPTR(3)
ENDCASE
CASE_ALL("WRPTR at depth 256")
        EACH_WRPTR(4)
ENDCASE
// covers: frozen-holds
CASE_ALL("FROZEN can be set and cleared")
        li      t0, FROZEN
        csrw    sctrstatus, t0
        csrr    t0, sctrstatus
        li      t1, FROZEN
        CHECK_REGS(t0, t1)
        csrwi   sctrstatus, 3
        CHECK_CSR(sctrstatus, 3)
        li      t0, FROZEN
        csrs    sctrstatus, t0
        li      t1, FROZEN | 3
        csrr    t0, sctrstatus
        CHECK_REGS(t0, t1)
        li      t0, FROZEN
        csrc    sctrstatus, t0
        CHECK_CSR(sctrstatus, 3)
ENDCASE
// covers: status-guest
CASE_ALL("VS has the same register")
        NEED(HAS_H)
        csrwi   sctrstatus, 5
        AFTER(8f)
        ENTER_VS(1f)
1:      csrr    s4, sctrstatus
        csrwi   sctrstatus, 6
        ecall
8:      CHECK_EQ(s4, 5)
        CHECK_CSR(sctrstatus, 6)
ENDCASE
// covers: frozen-holds status-guest
CASE("S and VS can set and clear FROZEN")
        AFTER(8f)
        ENTER_S(1f)
1:      li      t0, FROZEN
        csrs    sctrstatus, t0
        csrr    s4, sctrstatus
        csrc    sctrstatus, t0
        csrr    s5, sctrstatus
        ecall
8:      CHECK_EQ(s4, FROZEN)
        CHECK_EQ(s5, 0)
        NEED(HAS_H)
        AFTER(8f)
        ENTER_VS(1f)
1:      li      t0, FROZEN
        csrs    sctrstatus, t0
        csrr    s4, sctrstatus
        csrc    sctrstatus, t0
        csrr    s5, sctrstatus
        ecall
8:      CHECK_EQ(s4, FROZEN)
        CHECK_EQ(s5, 0)
ENDCASE
// covers: registers-apart
CASE_ALL("a write of sctrstatus leaves the controls, the depth and the selects")
        li      t0, CTL_S | CTL_BPFRZ
        csrw    mctrctl, t0
        GREATEST_DEPTH
        csrr    s5, sctrdepth
        li      t0, ENTRY + 7
        csrw    siselect, t0
        li      t0, FROZEN | 9
        csrw    sctrstatus, t0
        csrw    sctrstatus, x0
        csrr    s3, mctrctl
        csrw    mctrctl, x0
        CHECK_EQ(s3, CTL_S | CTL_BPFRZ)
        csrr    t0, sctrdepth
        CHECK_REGS(t0, s5)
        CHECK_CSR(siselect, ENTRY + 7)
ENDCASE
// covers: status-guest
CASE("S sets and reads WRPTR, and so does VS, in one register")
        AFTER(8f)
        ENTER_S(1f)
1:      csrwi   sctrstatus, 11
        csrr    s4, sctrstatus
        ecall
8:      CHECK_EQ(s4, 11)
        CHECK_CSR(sctrstatus, 11)
        NEED(HAS_H)
        AFTER(8f)
        ENTER_VS(1f)
1:      csrr    s4, sctrstatus
        csrwi   sctrstatus, 13
        csrr    s5, sctrstatus
        ecall
8:      CHECK_EQ(s4, 11)
        CHECK_EQ(s5, 13)
        CHECK_CSR(sctrstatus, 13)
ENDCASE
ENDTESTS
