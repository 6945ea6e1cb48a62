// Which mode reaches which register, and what a refused access raises: 2, an illegal instruction; 22, a virtual one.
#include "ctr.h"

// In a mode, one after another: a read and a write of each register, then SCTRCLR. Each cause, or -1, goes to
// ctr_scratch. Writes clear bit 0 of a register that M keeps at 0 or restores.
        .macro  try2 csr
        TRY(csrr t0, \csr)
        sd      a1, 0(s4)
        TRY(csrci \csr, 1)
        sd      a1, 8(s4)
        addi    s4, s4, 16
        .endm
        .macro  try_all
        la      s4, ctr_scratch
        try2    sctrctl
        try2    sctrstatus
        try2    sctrdepth
        try2    siselect
        try2    sireg
        try2    sireg2
        try2    sireg3
        try2    MCTRCTL
        try2    vsctrctl
        try2    vsiselect
        try2    vsireg
        try2    vsireg2
        try2    vsireg3
        TRY(SCTRCLR)
        sd      a1, 0(s4)
        .endm
// Pairs of reads and writes from `first` on have this cause.
#define EXPECT(first, count, cause) \
        li s4, first; li s5, 2 * (first) + 2 * (count); slli s4, s4, 1; \
6:      la t0, ctr_scratch; slli t1, s4, 3; add t0, t0, t1; ld t0, 0(t0); CHECK_AT(s4, t0, cause); \
        addi s4, s4, 1; bltu s4, s5, 6b
#define EXPECT_CLEAR(cause) la t0, ctr_scratch; ld t0, 208(t0); CHECK_EQ(t0, cause)
#define PREPARE(after) \
        li t0, ENTRY; csrw siselect, t0; la t0, begin_signature; ld t0, R_FEATURES(t0); andi t0, t0, HAS_H; beqz t0, 5f; \
        li t0, ENTRY; csrw vsiselect, t0; \
5:      AFTER(after)

TESTS(30000)
// covers: access-machine
CASE("M reaches all")
        PREPARE(ctr_unexpected)
        try_all
        EXPECT(0, 8, -1)
        EXPECT_CLEAR(-1)
ENDCASE
CASE("M reaches those of VS")
        NEED(HAS_H)
        PREPARE(ctr_unexpected)
        try_all
        EXPECT(8, 5, -1)
ENDCASE
// covers: access-supervisor
CASE("S reaches all but mctrctl")
        PREPARE(8f)
        ENTER_S(1f)
1:      try_all
        ecall
8:      EXPECT(0, 7, -1)
        EXPECT(7, 1, 2)
        EXPECT_CLEAR(-1)
ENDCASE
CASE("S reaches those of VS")
        NEED(HAS_H)
        PREPARE(8f)
        ENTER_S(1f)
1:      try_all
        ecall
8:      EXPECT(8, 5, -1)
ENDCASE
// covers: access-user clear-modes
CASE_ALL("U reaches none: illegal instructions")
        PREPARE(8f)
        ENTER_U(1f)
1:      try_all
        ecall
8:      EXPECT(0, 13, 2)
        EXPECT_CLEAR(2)
ENDCASE
// covers: access-guest clear-modes
CASE_ALL("VS reaches sctrctl, sctrstatus and the entries")
        NEED(HAS_H)
        PREPARE(8f)
        ENTER_VS(1f)
1:      try_all
        ecall
8:      EXPECT(0, 2, -1)
        EXPECT(3, 4, -1)
        EXPECT_CLEAR(-1)
ENDCASE
CASE_ALL("in VS sctrdepth is a virtual instruction")
        NEED(HAS_H)
        PREPARE(8f)
        ENTER_VS(1f)
1:      try_all
        ecall
8:      EXPECT(2, 1, 22)
ENDCASE
CASE_ALL("in VS mctrctl is illegal, and the numbers of VS are virtual instructions")
        NEED(HAS_H)
        PREPARE(8f)
        ENTER_VS(1f)
1:      try_all
        ecall
8:      EXPECT(7, 1, 2)
        EXPECT(8, 5, 22)
ENDCASE
// covers: access-guest-user clear-modes
CASE_ALL("VU reaches none: virtual instructions, mctrctl illegal")
        NEED(HAS_H)
        PREPARE(8f)
        ENTER_VU(1f)
1:      try_all
        ecall
8:      EXPECT(0, 7, 22)
        EXPECT(7, 1, 2)
        EXPECT(8, 5, 22)
        EXPECT_CLEAR(22)
ENDCASE
// covers: access-refused
CASE_ALL("a refused access changes nothing")
        START(CTL_BPFRZ, 0, 8f)
        csrwi   sctrstatus, 9
        ENTER_U(1f)
1:      li      t0, -1
        TRY(csrw sctrctl, t0)
        TRY(csrw sctrstatus, t0)
        TRY(csrw sctrdepth, x0)
        TRY(csrw MCTRCTL, t0)
        ecall
8:      CHECK_EQ(s11, CTL_BPFRZ)
        CHECK_CSR(sctrstatus, 9)
        la      t0, ctr_depth
        ld      s4, 0(t0)
        csrr    t0, sctrdepth
        CHECK_REGS(t0, s4)
ENDCASE
CASE_ALL("a refused access in VS changes nothing")
        NEED(HAS_H)
        START(CTL_BPFRZ, CTL_BPFRZ, 8f)
        csrwi   sctrstatus, 9
        li      t0, ENTRY + 3
        csrw    vsiselect, t0
        ENTER_VS(1f)
1:      li      t0, -1
        TRY(csrw sctrdepth, t0)
        TRY(csrw MCTRCTL, t0)
        TRY(csrw vsctrctl, t0)
        TRY(csrw vsiselect, x0)
        ecall
8:      CHECK_EQ(s11, CTL_BPFRZ)
        CHECK_CSR(vsctrctl, CTL_BPFRZ)
        CHECK_CSR(vsiselect, ENTRY + 3)
        CHECK_CSR(sctrstatus, 9)
        la      t0, ctr_depth
        ld      s4, 0(t0)
        csrr    t0, sctrdepth
        CHECK_REGS(t0, s4)
ENDCASE
CASE_ALL("a refused SCTRCLR leaves the entries")
        START(0, 0, 8f)
        li      t0, ENTRY
        csrw    siselect, t0
        la      t0, _start + 1
        csrw    sireg, t0
        ENTER_U(1f)
1:      SCTRCLR
8:      li      t0, ENTRY
        csrw    siselect, t0
        csrr    t0, sireg
        la      t1, _start + 1
        CHECK_REGS(t0, t1)
        CHECK_CSR(mcause, ILLEGAL)
        NEED(HAS_H)
        AFTER(8f)
        ENTER_VU(1f)
1:      SCTRCLR
8:      csrr    t0, sireg
        la      t1, _start + 1
        CHECK_REGS(t0, t1)
        CHECK_CSR(mcause, VIRTUAL)
ENDCASE
ENDTESTS
