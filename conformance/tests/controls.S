// mctrctl, sctrctl and vsctrctl: which fields there must be, that those can be written, and that the others read 0.
#include "ctr.h"

// Each bit of the mask alone holds 1 and 0.
#define EACH_BIT(csr, mask_at) \
        la t0, begin_signature; ld s4, mask_at(t0); li s5, 1; \
1:      and t0, s4, s5; beqz t0, 2f; csrw csr, s5; csrr t0, csr; csrw csr, x0; CHECK_REGS(t0, s5); CHECK_CSR(csr, 0); \
2:      slli s5, s5, 1; bnez s5, 1b

TESTS(25000)
// covers: control-fields
CASE_OR("M, S, U and BPFRZ of mctrctl are there", "S, U and BPFRZ of sctrctl are there")
        la      t0, begin_signature
        ld      t0, R_MCTRCTL(t0)
        li      t1, CTL_M | CTL_S | CTL_U | CTL_BPFRZ
        and     t0, t0, t1
        CHECK_REGS(t0, t1)
ENDCASE
// covers: control-overflow
CASE_ALL("LCOFIFRZ is there where the interrupt is")
        NEED(HAS_LCOFI)
        la      t0, begin_signature
        ld      t0, R_MCTRCTL(t0)
        li      t1, CTL_LCOFIFRZ
        and     t0, t0, t1
        CHECK_REGS(t0, t1)
ENDCASE
// covers: control-holds
CASE_OR("mctrctl: each field that is there holds 1 and 0", "sctrctl: each field that is there holds 1 and 0")
        EACH_BIT(mctrctl, R_MCTRCTL)
ENDCASE
// covers: control-rest
CASE_OR("mctrctl: what the standard doesn't name reads 0", "sctrctl: M, MTE and what the standard doesn't name read 0")
        la      t0, begin_signature
        ld      t0, R_MCTRCTL(t0)
        li      t1, ~CTL_KNOWN_M
        and     t0, t0, t1
        CHECK_EQ(t0, 0)
ENDCASE
// covers: supervisor-view
CASE("sctrctl shows mctrctl without M and MTE")
        la      t0, begin_signature
        ld      s4, R_MCTRCTL(t0)
        csrw    mctrctl, s4
        csrr    s5, sctrctl
        csrw    mctrctl, x0
        li      t1, ~(CTL_M | CTL_MTE)
        and     t1, s4, t1
        CHECK_REGS(s5, t1)
ENDCASE
// covers: supervisor-write
CASE("a write of sctrctl changes the other fields and leaves M and MTE")
        la      t0, begin_signature
        ld      s4, R_MCTRCTL(t0)
        csrw    mctrctl, s4
        csrw    sctrctl, x0
        csrr    s5, mctrctl
        csrw    mctrctl, x0
        li      t1, CTL_M | CTL_MTE
        and     t1, s4, t1
        CHECK_REGS(s5, t1)
        csrw    mctrctl, x0
        csrw    sctrctl, s4
        csrr    s5, mctrctl
        csrw    mctrctl, x0
        li      t1, ~(CTL_M | CTL_MTE)
        and     t1, s4, t1
        CHECK_REGS(s5, t1)
ENDCASE
// covers: guest-control-fields
CASE_ALL("S, U and BPFRZ of vsctrctl are there")
        NEED(HAS_H)
        la      t0, begin_signature
        ld      t0, R_VSCTRCTL(t0)
        li      t1, CTL_S | CTL_U | CTL_BPFRZ
        and     t0, t0, t1
        CHECK_REGS(t0, t1)
ENDCASE
CASE_ALL("vsctrctl: each field that is there holds 1 and 0")
        NEED(HAS_H)
        EACH_BIT(vsctrctl, R_VSCTRCTL)
ENDCASE
CASE_ALL("vsctrctl: M, MTE and what the standard doesn't name read 0")
        NEED(HAS_H)
        la      t0, begin_signature
        ld      t0, R_VSCTRCTL(t0)
        li      t1, ~CTL_KNOWN_S
        and     t0, t0, t1
        CHECK_EQ(t0, 0)
ENDCASE
// covers: guest-control-own
CASE_OR("vsctrctl and mctrctl are two registers", "vsctrctl and sctrctl are two registers")
        NEED(HAS_H)
        li      t0, CTL_U | CTL_BPFRZ
        csrw    mctrctl, t0
        csrwi   vsctrctl, CTL_S
        csrr    s4, mctrctl
        csrr    s5, vsctrctl
        csrw    mctrctl, x0
        csrw    vsctrctl, x0
        CHECK_EQ(s4, CTL_U | CTL_BPFRZ)
        CHECK_EQ(s5, CTL_S)
        li      t0, ~CTL_CUSTOM
        csrw    mctrctl, t0
        csrr    s5, vsctrctl
        csrw    mctrctl, x0
        csrw    vsctrctl, t0
        csrr    s4, mctrctl
        csrw    vsctrctl, x0
        CHECK_EQ(s4, 0)
        CHECK_EQ(s5, 0)
ENDCASE
// covers: guest-control-view
CASE_ALL("in VS sctrctl is vsctrctl")
        NEED(HAS_H)
        START(CTL_BPFRZ, CTL_VU, 8f)
        ENTER_VS(1f)
1:      csrr    s4, sctrctl
        csrwi   sctrctl, 0
        ecall
8:      CHECK_EQ(s4, CTL_VU)
        CHECK_CSR(vsctrctl, 0)
        CHECK_EQ(s11, CTL_BPFRZ)
ENDCASE
CASE_OR("in VS each field of vsctrctl is written by sctrctl, and mctrctl stays", "in VS each field of vsctrctl is written by sctrctl, and sctrctl stays")
        NEED(HAS_H)
        la      t0, begin_signature
        ld      s4, R_VSCTRCTL(t0)
        li      t0, CTL_U
        csrw    mctrctl, t0
        AFTER(8f)
        li      s1, 0                   // how many fields didn't hold
        ENTER_VS(1f)
1:      li      s5, 1
2:      and     t0, s4, s5
        beqz    t0, 3f
        csrw    sctrctl, s5
        csrr    t0, sctrctl
        xor     t0, t0, s5
        snez    t0, t0
        add     s1, s1, t0
3:      slli    s5, s5, 1
        bnez    s5, 2b
        csrw    sctrctl, x0
        ecall
8:      CHECK_EQ(s1, 0)
        CHECK_EQ(s11, CTL_U)
        CHECK_CSR(vsctrctl, 0)
ENDCASE
// covers: supervisor-write control-holds
CASE("each field of sctrctl, by itself, in S: M and MTE stay")
        la      t0, begin_signature
        ld      s4, R_MCTRCTL(t0)
        li      t0, CTL_M | CTL_MTE
        and     s3, s4, t0
        not     t0, t0
        and     s4, s4, t0
        csrw    mctrctl, s3
        AFTER(8f)
        li      s1, 0
        ENTER_S(1f)
1:      li      s5, 1
2:      and     t0, s4, s5
        beqz    t0, 3f
        csrs    sctrctl, s5
        csrr    t0, sctrctl
        xor     t0, t0, s5
        snez    t0, t0
        add     s1, s1, t0
        csrc    sctrctl, s5
        csrr    t0, sctrctl
        snez    t0, t0
        add     s1, s1, t0
3:      slli    s5, s5, 1
        bnez    s5, 2b
        ecall
8:      CHECK_EQ(s1, 0)
        CHECK_REGS(s11, s3)
ENDCASE
// covers: registers-apart
CASE_ALL("a write of a control leaves WRPTR, FROZEN, the depth and the selects")
        GREATEST_DEPTH
        csrr    s5, sctrdepth
        li      t0, ENTRY + 3
        csrw    siselect, t0
        li      t0, FROZEN | 5
        csrw    sctrstatus, t0
        li      t0, CTL_U | CTL_BPFRZ
        csrw    mctrctl, t0
        csrw    mctrctl, x0
        csrwi   sctrctl, CTL_S
        csrw    sctrctl, x0
        csrr    t0, sctrstatus
        li      t1, FROZEN | 5
        CHECK_REGS(t0, t1)
        csrr    t0, sctrdepth
        CHECK_REGS(t0, s5)
        CHECK_CSR(siselect, ENTRY + 3)
        NEED(HAS_H)
        li      t0, CTL_VU | CTL_BPFRZ
        csrw    vsctrctl, t0
        csrw    vsctrctl, x0
        csrr    t0, sctrstatus
        li      t1, FROZEN | 5
        CHECK_REGS(t0, t1)
        csrr    t0, sctrdepth
        CHECK_REGS(t0, s5)
ENDCASE
// covers: guest-control-own
CASE("HS writes vsctrctl by its number, and each field holds")
        NEED(HAS_H)
        la      t0, begin_signature
        ld      s4, R_VSCTRCTL(t0)
        AFTER(8f)
        ENTER_S(1f)
1:      csrw    vsctrctl, s4
        csrr    s5, vsctrctl
        csrr    s3, sctrctl
        csrw    vsctrctl, x0
        ecall
8:      CHECK_REGS(s5, s4)
        CHECK_EQ(s3, 0)
ENDCASE
ENDTESTS
