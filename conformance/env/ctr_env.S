// What the cases stand on: the start, probing, traps, the beginning and the end of a case, and comparison. All of it but
// the handlers runs at home, in M or in S (ctr.h), and with recording off but inside of a case.
#include "ctr.h"

#ifndef START_S
        .section .text.start, "ax"
        .globl  _start
_start:
        csrr    t0, mhartid
        bnez    t0, park                // one hart runs the test
        la      t0, ctr_probe_trap
        csrw    mtvec, t0
        call    target_init
#else
        .text
        .globl  ctr_start
ctr_start:                              // in S; a0 is misa, or 0 where nothing is known of it
        mv      s0, a0
        la      t0, ctr_probe_trap
        csrw    mtvec, t0
#endif
        call    ctr_probe
        la      t0, begin_signature
        li      t1, MAGIC
        sd      t1, 0(t0)
        call    ctr_tests
        la      a0, begin_signature
        li      t0, 1
        sd      t0, R_STATE(a0)
        la      a1, end_signature
        j       target_report
#ifndef START_S
park:
        wfi
        j       park
#endif

        .text
// ---------------------------------------------------------------- probing
// One instruction that may trap: a1 is the cause afterwards, or NO_TRAP.
#define PROBE(...) li a1, NO_TRAP; __VA_ARGS__

        .balign 64
ctr_probe_trap:
        csrr    a1, mcause
        csrr    t6, mepc
        addi    t6, t6, 4
        csrw    mepc, t6
        HOME_RETURN

// s0 gathers the features, s2 and s3 what mctrctl and vsctrctl hold.
ctr_probe:
        mv      s1, ra
        mv      s4, s0
        li      s0, 0
        li      s2, 0
        li      s3, 0
#ifndef START_S
        li      t0, -1                  // where there is memory protection, S and U may reach all memory
        PROBE(csrw pmpaddr0, t0)
        li      t0, 0x1f
        PROBE(csrw pmpcfg0, t0)

        li      t0, 0x41 << 54          // the state-enable bits of the records and of indirect access
        PROBE(csrs mstateen0, t0)
        bgez    a1, 1f
        csrr    t1, mstateen0
        li      t2, 1 << 54
        and     t1, t1, t2
        beqz    t1, 1f
        li      t2, HAS_STATEEN
        or      s0, s0, t2
        PROBE(csrs hstateen0, t0)
1:
#endif
        PROBE(csrr t0, hstatus)
        bgez    a1, 1f
        li      t2, HAS_H
        or      s0, s0, t2
#ifdef START_S
        li      t0, 0x41 << 54          // that of M is open; here it is that of the hypervisor
        PROBE(csrs hstateen0, t0)
        bgez    a1, 1f
        csrr    t1, hstateen0
        li      t2, 1 << 54
        and     t1, t1, t2
        beqz    t1, 1f
        li      t2, HAS_STATEEN
        or      s0, s0, t2
#endif
1:
#ifndef START_S
        csrr    t0, misa                // it may read 0, and then tells nothing
#else
        mv      t0, s4
#endif
        beqz    t0, 1f
        andi    t1, t0, 1 << 2
        li      t2, HAS_GRAIN
        beqz    t1, 2f
        li      t2, HAS_C
2:
        or      s0, s0, t2
1:
        la      t0, ctr_nowhere
        ld      t0, 0(t0)
        beqz    t0, 1f
        li      t2, HAS_NOWHERE
        or      s0, s0, t2
1:
        PROBE(csrr t0, mctrctl)         // an implementation without the records has no register of theirs touched again
        bgez    a1, 9f
        PROBE(csrr t0, sctrstatus)
        bgez    a1, 9f
        li      t2, HAS_CTR
        or      s0, s0, t2
        li      t0, ~CTL_CUSTOM         // the custom bits stay 0, which asks for the standard's behavior
        csrw    mctrctl, t0
        csrr    s2, mctrctl
        csrw    mctrctl, x0
        andi    t0, s0, HAS_H
        beqz    t0, 1f
        li      t0, ~CTL_CUSTOM
        csrw    vsctrctl, t0
        csrr    s3, vsctrctl
        csrw    vsctrctl, x0
#ifndef START_S
        li      t0, STATUS_MPV
        csrs    mstatus, t0
        csrr    t1, mstatus
        csrc    mstatus, t0
        and     t1, t1, t0
        beqz    t1, 1f
        li      t2, HAS_MPV
        or      s0, s0, t2
#endif
1:
        li      t0, 4                   // the depths, from the greatest down, so that t3 is the least in the end
        li      t3, -1
1:
        csrw    sctrdepth, t0
        csrr    t1, sctrdepth
        bne     t1, t0, 2f
        li      t2, 1
        sll     t2, t2, t0
        or      s0, s0, t2
        mv      t3, t0
2:
        addi    t0, t0, -1
        bgez    t0, 1b
        la      t0, ctr_depth
        sd      t3, 0(t0)
        csrw    sctrdepth, t3

        li      t0, ENTRY               // the transfer type and the cycle count of an entry
        csrw    siselect, t0
        li      t0, 9
        csrw    sireg3, t0
        csrr    t1, sireg3
        andi    t1, t1, 15
        bne     t0, t1, 1f
        li      t2, HAS_TYPE
        or      s0, s0, t2
1:
        li      t0, DATA_CCV
        csrw    sireg3, t0
        csrr    t1, sireg3
        csrw    sireg3, x0
        and     t1, t1, t0
        beqz    t1, 1f
        li      t2, HAS_CYCLES
        or      s0, s0, t2
1:
        li      t0, LCOFI               // the overflow interrupt can be enabled, and made pending
        csrw    mie, t0
        csrr    t1, mie
        csrw    mie, x0
        and     t1, t1, t0
        beqz    t1, 9f
        csrs    mip, t0
        csrr    t1, mip
        csrc    mip, t0
        and     t1, t1, t0
        beqz    t1, 9f
        li      t2, HAS_LCOFI
        or      s0, s0, t2
        andi    t1, s0, HAS_H
        beqz    t1, 9f
#ifndef START_S
        csrw    mideleg, t0
#endif
        csrw    hideleg, t0
        csrr    t1, hideleg
#ifndef START_S
        csrw    mideleg, x0
#endif
        csrw    hideleg, x0
        and     t1, t1, t0
        beqz    t1, 9f
        li      t2, HAS_VLCOFI
        or      s0, s0, t2
9:
        la      t0, begin_signature
        sd      s2, R_MCTRCTL(t0)
        sd      s3, R_VSCTRCTL(t0)
        sd      s0, R_FEATURES(t0)
        la      t0, ctr_mtrap
        csrw    mtvec, t0
        jr      s1

// ---------------------------------------------------------------- traps
        .globl  ctr_mtrap, ctr_strap, ctr_vstrap, ctr_unexpected
// Into the home. Recording ends by the first instruction. s10 is sctrstatus and s11 mctrctl as the trap found them, a0 mcause
// and a1 mepc. It goes on there by a return with MPIE clear: interrupts stay off, since on most implementations one that was
// taken is still pending, and mstatus.MPV is cleared where no CSR instruction can clear it. In S hstatus.SPV is cleared first.
        .balign 64
ctr_mtrap:
        csrrci  s11, mctrctl, CTL_M | CTL_S | CTL_U
        csrr    s10, sctrstatus
        bnez    s7, 1f
        csrr    a0, mcause
        csrr    a1, mepc
        la      t0, ctr_after
        ld      t1, 0(t0)
        csrw    mepc, t1
        la      t1, ctr_unexpected      // a case waits for one trap at a time
        sd      t1, 0(t0)
#ifdef START_S
        la      t0, begin_signature
        ld      t0, R_FEATURES(t0)
        andi    t0, t0, HAS_H
        beqz    t0, 2f
        li      t0, STATUS_SPV
        csrc    hstatus, t0
2:
#endif
        li      t0, STATUS_HOME_PIE
        csrc    mstatus, t0
        li      t0, STATUS_HOME_PP
        csrs    mstatus, t0
        HOME_RETURN
1:                                      // of TRY
        csrr    a1, mcause
        csrr    s6, mepc
        addi    s6, s6, 4
        csrw    mepc, s6
        HOME_RETURN

// Into HS and VS: s8 or s9 is sctrstatus as the trap found it, recording is ended, and an ECALL goes on to M.
        .balign 64
ctr_strap:
        csrr    s8, sctrstatus
        csrci   sctrctl, CTL_S | CTL_U
        li      t0, FROZEN
        csrs    sctrstatus, t0
        ecall
        j       .
        .balign 64
ctr_vstrap:
        csrr    s9, sctrstatus
        csrci   sctrctl, CTL_S | CTL_U
        li      t0, FROZEN
        csrs    sctrstatus, t0
        ecall
        j       .

// A trap that no case waits for is a failure, and ends the case.
ctr_unexpected:
        mv      a7, a0
        mv      a0, a1
        li      a3, 0
        li      a5, F_TRAP
        li      a6, 0
        jal     t6, ctr_fail
        j       ctr_leave

// ---------------------------------------------------------------- cases
        .globl  ctr_case_begin, ctr_case_end, ctr_skip, ctr_need, ctr_need_controls, ctr_delegate, ctr_delegate_int
        .globl  ctr_prepare, ctr_greatest, ctr_check_list, ctr_check_entry, ctr_check, ctr_fail
        .globl  ctr_depth, ctr_after, ctr_home, ctr_scratch

// a0: where the case ends. Delegation, interrupts, modes, controls, depth and records become those that each case begins
// with.
ctr_case_begin:
        la      t0, ctr_exit
        sd      a0, 0(t0)
        la      t0, ctr_fails
        sd      x0, 0(t0)
        la      t0, ctr_after
        la      t1, ctr_unexpected
        sd      t1, 0(t0)
        li      s7, 0
        la      t0, begin_signature
        ld      t1, R_CASES(t0)
        slli    t1, t1, 4
        add     t0, t0, t1
        sd      x0, R_CASE(t0)          // no outcome yet
#ifndef START_S
        csrw    medeleg, x0
        csrw    mideleg, x0
#endif
        csrw    mie, x0
        li      t0, LCOFI | SEI | STI | SSI
        csrc    mip, t0
        li      t0, STATUS_SIE | STATUS_HOME_IE | 1 << 5 | STATUS_HOME_PIE | STATUS_SPP | STATUS_HOME_PP
        csrc    mstatus, t0
#ifndef START_S
        la      t0, ctr_strap
#else
        la      t0, ctr_mtrap
#endif
        csrw    stvec, t0
        la      t0, begin_signature
        ld      t1, R_FEATURES(t0)
        andi    t2, t1, HAS_CTR
        beqz    t2, 8f
        csrw    mctrctl, x0
        andi    t2, t1, HAS_H
        beqz    t2, 1f
        csrw    vsctrctl, x0
        csrw    hedeleg, x0
        csrw    hideleg, x0
        csrw    hvip, x0
#ifdef START_S
        csrw    hie, x0
#endif
        csrw    vsstatus, x0
        li      t0, STATUS_SPV | 1 << 8 // and SPVP
        csrc    hstatus, t0
        la      t0, ctr_vstrap
        csrw    vstvec, t0
1:
        la      t0, ctr_depth
        ld      t0, 0(t0)
        csrw    sctrdepth, t0
        csrw    sctrstatus, x0
        SCTRCLR
        ret
8:
        li      a0, SKIP_FEATURE
        li      a1, HAS_CTR

// Ends the case as skipped. a0: the reason, a1: its detail.
ctr_skip:
        la      t0, begin_signature
        ld      t1, R_CASES(t0)
        slli    t1, t1, 4
        add     t0, t0, t1
        slli    a0, a0, 8
        ori     a0, a0, SKIPPED
        sd      a0, R_CASE(t0)
        sd      a1, R_DETAIL(t0)
ctr_leave:
        la      t0, ctr_exit
        ld      t0, 0(t0)
        jr      t0

ctr_case_end:
        la      t0, begin_signature
        ld      t1, R_FEATURES(t0)
        andi    t1, t1, HAS_CTR
        beqz    t1, 1f
        HALT
1:
        la      t2, ctr_fails
        ld      t2, 0(t2)
        ld      t1, R_CASES(t0)
        addi    t3, t1, 1
        sd      t3, R_CASES(t0)
        slli    t1, t1, 4
        add     t0, t0, t1
        li      t1, FAILED
        bnez    t2, 2f                  // also where it was skipped after a failure
        ld      t1, R_CASE(t0)
        bnez    t1, 3f
        li      t1, PASSED
2:
        sd      t1, R_CASE(t0)
3:
        ret

ctr_need:                               // a0: features
        la      t0, begin_signature
        ld      t0, R_FEATURES(t0)
        not     t0, t0
        and     a1, a0, t0
        li      a0, SKIP_FEATURE
        bnez    a1, ctr_skip
        ret

ctr_need_controls:                      // a0: bits of mctrctl, a1: bits of vsctrctl; both are kept
        la      t0, begin_signature
        ld      t1, R_MCTRCTL(t0)
        not     t1, t1
        and     t1, a0, t1
        bnez    t1, 1f
        ld      t1, R_VSCTRCTL(t0)
        not     t1, t1
        and     t1, a1, t1
        bnez    t1, 2f
        ret
1:
        mv      a1, t1
        li      a0, SKIP_MCTRCTL
        j       ctr_skip
2:
        mv      a1, t1
        li      a0, SKIP_VSCTRCTL
        j       ctr_skip

// The case goes on where the register holds the bits; otherwise it is skipped.
#define HOLDS(csr, reg, reason) \
        csrw csr, reg; csrr t0, csr; not t0, t0; and t0, t0, reg; li t1, reason; bnez t0, 9f
ctr_delegate:
#ifndef START_S
        HOLDS(medeleg, a0, SKIP_MEDELEG)
#endif
        beqz    a1, 1f
        HOLDS(hedeleg, a1, SKIP_HEDELEG)
1:
        ret
ctr_delegate_int:
#ifndef START_S
        HOLDS(mideleg, a0, SKIP_MIDELEG)
#endif
        beqz    a1, 1f
        HOLDS(hideleg, a1, SKIP_HIDELEG)
1:
        ret
9:
        mv      a0, t1
        mv      a1, t0
        j       ctr_skip

// a0: mctrctl to come, a1: vsctrctl, a2: where a trap into M goes on. The caller writes mctrctl itself.
ctr_prepare:
        mv      s6, ra
        call    ctr_need_controls
        la      t0, ctr_after
        sd      a2, 0(t0)
        csrw    mctrctl, x0
        csrw    sctrstatus, x0
        SCTRCLR
        la      t0, begin_signature
        ld      t0, R_FEATURES(t0)
        andi    t0, t0, HAS_H
        beqz    t0, 1f
        csrw    vsctrctl, a1
1:
        jr      s6

// Sets the greatest depth that there is; a0 becomes its number of entries.
ctr_greatest:
        li      t0, 5
1:
        addi    t0, t0, -1
        csrw    sctrdepth, t0
        csrr    t1, sctrdepth
        bne     t0, t1, 1b
        li      a0, 16
        sll     a0, a0, t0
        ret

// ---------------------------------------------------------------- comparison
// The entries against a list. a0: its rows, oldest first, a1: the types that are left out.
ctr_check_list:
        mv      s6, ra
        mv      s0, a0
        mv      s1, a1
        li      s2, 0                   // how many rows count
1:
        ld      t0, 0(a0)
        beqz    t0, 2f
        ld      t0, 24(a0)
        srl     t0, s1, t0
        andi    t0, t0, 1
        xori    t0, t0, 1
        add     s2, s2, t0
        addi    a0, a0, 40
        j       1b
2:
        mv      s3, s2                  // the oldest row is entry s2 - 1
3:
        ld      t0, 0(s0)
        beqz    t0, 4f
        ld      a3, 24(s0)
        srl     t0, s1, a3
        andi    t0, t0, 1
        bnez    t0, 5f
        addi    s3, s3, -1
        mv      a0, s3
        ld      a1, 8(s0)
        ld      a2, 16(s0)
        ld      a4, 32(s0)
        call    ctr_check_entry
5:
        addi    s0, s0, 40
        j       3b
4:                                      // no other entry is valid
        ld      a3, 32(s0)
        csrr    t0, sctrdepth
        li      s3, 16
        sll     s3, s3, t0
        addi    s2, s2, ENTRY
        addi    s3, s3, ENTRY
6:
        bge     s2, s3, 7f
        csrw    siselect, s2
        csrr    a7, sireg
        andi    t0, a7, 1
        beqz    t0, 8f
        addi    a0, s2, -ENTRY
        li      a5, F_VALID
        li      a6, 0
        jal     t6, ctr_fail
8:
        addi    s2, s2, 1
        j       6b
7:
        la      t2, begin_signature
        ld      t0, R_CHECKS(t2)
        addi    t0, t0, 1
        sd      t0, R_CHECKS(t2)
        jr      s6

// Entry a0 is valid and has source a1, target a2 and type a3. a4: the line. MISP and the cycle count are the
// implementation's; the type is 0 where entries have none.
ctr_check_entry:
        addi    t0, a0, ENTRY
        csrw    siselect, t0
        mv      t5, a3
        mv      a3, a4
        la      t2, begin_signature
        ld      t0, R_CHECKS(t2)
        addi    t0, t0, 1
        sd      t0, R_CHECKS(t2)
        addi    a6, a1, 1
        csrr    a7, sireg
        li      a5, F_SOURCE
        beq     a6, a7, 1f
        jal     t6, ctr_fail
1:
        mv      a6, a2
        csrr    a7, sireg2
        andi    a7, a7, -2
        li      a5, F_TARGET
        beq     a6, a7, 2f
        jal     t6, ctr_fail
2:
        mv      a6, t5
        csrr    a7, sireg3
        andi    a7, a7, 15
        la      t2, begin_signature
        ld      t0, R_FEATURES(t2)
        andi    t0, t0, HAS_TYPE
        bnez    t0, 3f
        li      a6, 0
3:
        li      a5, F_TYPE
        beq     a6, a7, 4f
        jal     t6, ctr_fail
4:
        ret

ctr_check:                              // a0 is a1; a2: the line, a3: the number of a round
        la      t2, begin_signature
        ld      t0, R_CHECKS(t2)
        addi    t0, t0, 1
        sd      t0, R_CHECKS(t2)
        beq     a0, a1, 1f
        mv      a7, a0
        mv      a6, a1
        mv      a0, a3
        mv      a3, a2
        li      a5, F_VALUE
        jal     t6, ctr_fail
1:
        ret

// Writes a failure down, where there is room. a0: index, a3: line, a5: field, a6: expected, a7: got; t6 leads back.
ctr_fail:
        la      t0, ctr_fails
        ld      t1, 0(t0)
        addi    t1, t1, 1
        sd      t1, 0(t0)
        la      t0, begin_signature
        ld      t1, R_FAILURES(t0)
        addi    t2, t1, 1
        sd      t2, R_FAILURES(t0)
        li      t2, MAX_FAILED
        bgeu    t1, t2, 1f
        slli    t2, t1, 5
        slli    t1, t1, 4
        add     t1, t1, t2              // 48 bytes each
        add     t1, t1, t0
        ld      t2, R_CASES(t0)
        sd      t2, R_FAILURE(t1)
        sd      a3, R_FAILURE + 8(t1)
        sd      a0, R_FAILURE + 16(t1)
        sd      a5, R_FAILURE + 24(t1)
        sd      a6, R_FAILURE + 32(t1)
        sd      a7, R_FAILURE + 40(t1)
1:
        jr      t6

        .data
        .balign 8
ctr_depth:  .dword 0                    // the code of the least depth
ctr_after:  .dword 0
ctr_exit:   .dword 0
ctr_fails:  .dword 0                    // of the case
ctr_home:   .dword 0
ctr_scratch: .zero 512
        .balign 16
        .globl  begin_signature, end_signature
begin_signature: .zero R_SIZE
end_signature:
