// mstateen0.CTR and hstateen0.CTR keep lower modes from the registers of the records; recording goes on.
#include "ctr.h"

#define CTR_BIT (1 << 54)
        .macro  try_all
        la      s4, ctr_scratch
        TRY(csrr t0, sctrctl)
        sd      a1, 0(s4)
        TRY(csrr t0, sctrstatus)
        sd      a1, 8(s4)
        TRY(csrr t0, sireg)
        sd      a1, 16(s4)
        TRY(csrr t0, sireg2)
        sd      a1, 24(s4)
        TRY(csrr t0, sireg3)
        sd      a1, 32(s4)
        TRY(SCTRCLR)
        sd      a1, 40(s4)
        TRY(csrr t0, sctrdepth)
        sd      a1, 48(s4)
        TRY(csrr t0, vsctrctl)
        sd      a1, 56(s4)
        TRY(csrr t0, vsireg)
        sd      a1, 64(s4)
        .endm
#define EXPECT(first, count, cause) \
        li s4, first; li s5, (first) + (count); \
6:      la t0, ctr_scratch; slli t1, s4, 3; add t0, t0, t1; ld t0, 0(t0); CHECK_AT(s4, t0, cause); \
        addi s4, s4, 1; bltu s4, s5, 6b
#define ENABLE_M  li t0, CTR_BIT; csrs mstateen0, t0
#define DISABLE_M li t0, CTR_BIT; csrc mstateen0, t0
#define ENABLE_H  li t0, CTR_BIT; csrs hstateen0, t0
#define DISABLE_H li t0, CTR_BIT; csrc hstateen0, t0
#define PREPARE(after) \
        li t0, ENTRY; csrw siselect, t0; la t0, begin_signature; ld t0, R_FEATURES(t0); andi t0, t0, HAS_H; beqz t0, 5f; \
        li t0, ENTRY; csrw vsiselect, t0; \
5:      AFTER(after)

TESTS(15000)
// covers: state-supervisor
CASE("mstateen0.CTR 0: S is refused, illegal instructions")
        NEED(HAS_STATEEN)
        DISABLE_M
        PREPARE(8f)
        ENTER_S(1f)
1:      try_all
        ecall
8:      ENABLE_M
        EXPECT(0, 7, 2)
ENDCASE
// covers: state-guest
CASE("mstateen0.CTR 0: VS is refused, illegal instructions")
        NEED(HAS_STATEEN | HAS_H)
        DISABLE_M
        PREPARE(8f)
        ENTER_VS(1f)
1:      try_all
        ecall
8:      ENABLE_M
        EXPECT(0, 7, 2)
ENDCASE
// covers: state-supervisor
CASE("mstateen0.CTR 0: vsireg is refused in S")
        NEED(HAS_STATEEN | HAS_H)
        DISABLE_M
        PREPARE(8f)
        ENTER_S(1f)
1:      try_all
        ecall
8:      ENABLE_M
        EXPECT(8, 1, 2)
ENDCASE
CASE("mstateen0.CTR 0: vsctrctl is refused in S")
        NEED(HAS_STATEEN | HAS_H)
        DISABLE_M
        PREPARE(8f)
        ENTER_S(1f)
1:      try_all
        ecall
8:      ENABLE_M
        EXPECT(7, 1, 2)
ENDCASE
// covers: state-machine
CASE("mstateen0.CTR 0: M isn't refused")
        NEED(HAS_STATEEN)
        DISABLE_M
        PREPARE(ctr_unexpected)
        try_all
        ENABLE_M
        EXPECT(0, 7, -1)
ENDCASE
// covers: state-records
CASE("mstateen0.CTR 0: S is recorded all the same")
        NEED(HAS_STATEEN)
        DISABLE_M
        START(CTL_S, 0, 8f)
        ENTER_S(1f)
1:      j       2f
2:      ecall
8:      ENABLE_M
        LIST
        ROW(1b, 2b, DIRJUMP)
        END_LIST
ENDCASE
// covers: state-guest
CASE_ALL("hstateen0.CTR 0: VS is refused, virtual instructions")
        NEED(HAS_STATEEN | HAS_H)
        DISABLE_H
        PREPARE(8f)
        ENTER_VS(1f)
1:      try_all
        ecall
8:      ENABLE_H
        EXPECT(0, 7, 22)
ENDCASE
// covers: state-supervisor
CASE("hstateen0.CTR 0: S isn't refused")
        NEED(HAS_STATEEN | HAS_H)
        DISABLE_H
        PREPARE(8f)
        ENTER_S(1f)
1:      try_all
        ecall
8:      ENABLE_H
        EXPECT(0, 8, -1)
ENDCASE
// covers: state-records
CASE_ALL("hstateen0.CTR 0: VS is recorded all the same")
        NEED(HAS_STATEEN | HAS_H)
        DISABLE_H
        START(0, CTL_VS, 8f)
        ENTER_VS(1f)
1:      j       2f
2:      ecall
8:      ENABLE_H
        LIST
        ROW(1b, 2b, DIRJUMP)
        END_LIST
ENDCASE
ENDTESTS
