// Macros of the conformance tests for RISC-V Control Transfer Records 1.0 (Smctr, Ssctr).
//
// A test file has one function, ctr_tests, with cases in it. A case prepares the hart, makes some transfers, and
// compares the records with the rows that the standard asks for:
//
//     TESTS(20000)                         // the instructions that the whole test takes at most
//     // covers: trap-both trap-return-both
//     CASE("an ECALL from U into M, both enabled")
//         START(CTL_M | CTL_U, 0, 8f)      // mctrctl, vsctrctl, and where to go on after a trap into M
//         ENTER_U(1f)                      // the label 90 is the MRET
//     1:  ecall
//     8:  LIST
//         ROW(90b, 1b, TRAPRET)            // in the order in which they happened
//         ROW(1b, ctr_mtrap, EXCEPTION)
//         END_LIST                         // and no further entry is valid
//     ENDCASE
//     ENDTESTS
//
// The line `covers` names the statements of coverage.md that the cases below it check, up to the next such line.
// Recording begins with the last instruction of START, and nothing between there and the case's own transfers makes
// one. At label 8 the hart is in M and recording is off. Numeric labels from 90 on belong to the macros.
//
// A suite starts in M, or in S (START_S): as Ssctr alone is there, and as a supervisor or a guest sees it. The mode where
// the environment is at home is M or S then, and what the names of M stand for below is the home's: mctrctl, mstatus, mie,
// CTL_M and so on are sctrctl, sstatus, sie and CTL_S from S. CASE is a case that needs M; CASE_ALL one that says the same of
// either home; CASE_OR has a name for M and one for S; and CASE_S is there from S alone.
//
// Registers: s6 to s11 belong to the environment. A case has all others until it ends, but a macro changes t0 to t6
// and a0 to a7, and END_LIST s0 to s3 too.

// Control transfer records, and the registers through which the entries are reached.
#define MCTRCTL    0x34e                /* by its number, whatever the home is */
#ifndef START_S
#define mctrctl    MCTRCTL
#endif
#define sctrctl    0x14e
#define vsctrctl   0x24e
#define sctrstatus 0x14f
#define sctrdepth  0x15f
#define siselect   0x150
#define sireg      0x151
#define sireg2     0x152
#define sireg3     0x153
#define sireg4     0x155
#define sireg5     0x156
#define sireg6     0x157
#define vsiselect  0x250
#define vsireg     0x251
#define vsireg2    0x252
#define vsireg3    0x253
#define vsireg4    0x255
#define vsireg5    0x256
#define vsireg6    0x257
#define SCTRCLR    .word 0x10400073
#define ENTRY      0x200                /* the select of entry 0 */

// Registers that assemblers of some years ago don't know by name.
#define mstateen0  0x30c
#define hstateen0  0x60c
#define hstatus    0x600
#define hedeleg    0x602
#define hideleg    0x603
#define hie        0x604
#define hvip       0x645
#define vsstatus   0x200
#define vsie       0x204
#define vstvec     0x205
#define vsepc      0x241
#define vscause    0x242

// Fields of mctrctl, sctrctl and vsctrctl. In vsctrctl U, S and STE are those of VU and VS.
#define CTL_U          (1 << 0)
#define CTL_S          (1 << 1)
#ifndef START_S
#define CTL_M          (1 << 2)
#define CTL_MTE        (1 << 9)
#define CTL_BETWEEN    CTL_S            /* of the mode between U and the home */
#else
#define CTL_M          CTL_S
#define CTL_MTE        0
#define CTL_BETWEEN    0
#endif
#define CTL_RASEMU     (1 << 7)
#define CTL_STE        (1 << 8)
#define CTL_BPFRZ      (1 << 11)
#define CTL_LCOFIFRZ   (1 << 12)
#define CTL_EXCINH     (1 << 33)
#define CTL_INTRINH    (1 << 34)
#define CTL_TRETINH    (1 << 35)
#define CTL_NTBREN     (1 << 36)
#define CTL_TKBRINH    (1 << 37)
#define CTL_INDCALLINH (1 << 40)
#define CTL_DIRCALLINH (1 << 41)
#define CTL_INDJMPINH  (1 << 42)
#define CTL_DIRJMPINH  (1 << 43)
#define CTL_CORSWAPINH (1 << 44)
#define CTL_RETINH     (1 << 45)
#define CTL_INDLJMPINH (1 << 46)
#define CTL_DIRLJMPINH (1 << 47)
#define CTL_VU         CTL_U
#define CTL_VS         CTL_S
#define CTL_JUMPS      0xff3000000000   /* the filter bits of branches and jumps */
#define CTL_KNOWN_S    0x0000ff3e00001983
#define CTL_KNOWN_M    (CTL_KNOWN_S | CTL_M | CTL_MTE)
#define CTL_CUSTOM     0xf000000000000000

// Fields of sctrstatus and of the data word of an entry.
#define FROZEN         0x80000000
#define DATA_CCV       (1 << 15)
#define DATA_KNOWN     0xffff800f       /* the transfer type, CCV and the cycle count */

// Transfer types.
#define EXCEPTION  1
#define INTERRUPT  2
#define TRAPRET    3
#define NOTTAKEN   4
#define TAKEN      5
#define INDCALL    8
#define DIRCALL    9
#define INDJUMP    10
#define DIRJUMP    11
#define SWAP       12
#define RETURN     13
#define INDLINK    14
#define DIRLINK    15

// Bits of mstatus, hstatus and mip, and the numbers of exceptions.
#define STATUS_SIE (1 << 1)
#define STATUS_MIE (1 << 3)
#define STATUS_SPP (1 << 8)
#define STATUS_MPP (3 << 11)
#define STATUS_MPV (1 << 39)
#define STATUS_SPV (1 << 7)             /* of hstatus */
#define SSI        (1 << 1)             /* supervisor software interrupt */
#define VSSI       (1 << 2)
#define STI        (1 << 5)             /* supervisor timer interrupt */
#define VSTI       (1 << 6)
#define SEI        (1 << 9)             /* supervisor external interrupt */
#define VSEI       (1 << 10)
#define LCOFI      (1 << 13)            /* local counter overflow interrupt */
#define ILLEGAL    2
#define BREAKPOINT 3
#define ECALL_U    8
#define ECALL_S    9
#define ECALL_VS   10
#define VIRTUAL    22
#define NO_TRAP    -1

// What the home's registers are.
#ifndef START_S
#define STATUS_HOME_IE   STATUS_MIE
#define STATUS_HOME_PIE  (1 << 7)
#define STATUS_HOME_PP   STATUS_MPP
#define guest_ie         mie            /* enables interrupts of VS too */
#define EXTERNAL_BITS    7              /* the trap-enable bits within reach: STE, MTE, vsctrctl.STE */
#else
#define STATUS_HOME_IE   STATUS_SIE
#define STATUS_HOME_PIE  (1 << 5)
#define STATUS_HOME_PP   STATUS_SPP
#define guest_ie         hie
#define EXTERNAL_BITS    5
#define mctrctl  sctrctl
#define mstatus  sstatus
#define mie      sie
#define mip      sip
#define mtvec    stvec
#define mepc     sepc
#define mcause   scause
#define mscratch sscratch
#endif

// The block of results, in bytes from begin_signature; the words are of 64 bits.
#define MAGIC       0x3154534554525443  /* "CTRTEST1" */
#define R_STATE     8                   /* 1 once all cases have ended */
#define R_CASES     16                  /* how many cases there were */
#define R_FAILURES  24
#define R_MCTRCTL   32                  /* the bits that mctrctl holds */
#define R_VSCTRCTL  40
#define R_FEATURES  48
#define R_CHECKS    56                  /* how many comparisons were made */
#define R_CASE      64                  /* of each case its outcome and a detail */
#define R_DETAIL    72
#define MAX_CASES   60
#define R_FAILURE   (R_CASE + 16 * MAX_CASES)
#define MAX_FAILED  21                  /* failures of six words each */
#define R_SIZE      2048

// Outcomes of a case; a skip has its reason in bits 15:8.
#define PASSED  1
#define FAILED  2
#define SKIPPED 3

// Features that probing finds. Bits 0 to 4 are the depths 16 to 256.
#define HAS_CTR     (1 << 8)
#define HAS_H       (1 << 9)
#define HAS_TYPE    (1 << 10)           /* entries have a transfer type */
#define HAS_LCOFI   (1 << 11)           /* a local counter overflow interrupt can be made pending by software */
#define HAS_STATEEN (1 << 12)
#define HAS_C       (1 << 13)
#define HAS_VLCOFI  (1 << 14)           /* and delegated to VS */
#define HAS_MPV     (1 << 15)           /* mstatus.MPV can be written by a CSR instruction */
#define HAS_GRAIN   (1 << 16)           /* jumps go to multiples of 4 alone */
#define HAS_CYCLES  (1 << 17)           /* entries have a cycle count */
#define HAS_NOWHERE (1 << 18)           /* the target knows an address that has neither memory nor device */

// What a failure is about.
#define F_SOURCE 1
#define F_TARGET 2
#define F_TYPE   3
#define F_VALID  4
#define F_VALUE  5
#define F_TRAP   6

// Reasons of a skip.
#define SKIP_FEATURE  1                 /* detail: the features that are missing */
#define SKIP_MCTRCTL  2                 /* detail: the bits of mctrctl that are missing */
#define SKIP_VSCTRCTL 3
#define SKIP_MEDELEG  4
#define SKIP_HEDELEG  5
#define SKIP_MIDELEG  6
#define SKIP_HIDELEG  7
#define SKIP_CSR      8                 /* detail: the number of a register that doesn't hold what it should */

        .option norvc
        .option norelax

#define TESTS(most) \
        .globl ctr_most; .equ ctr_most, most; .text; .globl ctr_tests; .balign 4; \
ctr_tests: la t0, ctr_home; sd ra, 0(t0)
#define ENDTESTS la t0, ctr_home; ld ra, 0(t0); ret

#define CASE_HERE(name) .if 1; \
        .pushsection .ctr.cases, "", @progbits; .asciz name; .popsection; \
        la a0, 99f; call ctr_case_begin
#define ENDCASE  99: call ctr_case_end; .endif
#ifndef START_S
#define CASE(name)           CASE_HERE(name)
#define CASE_ALL(name)       CASE_HERE(name)
#define CASE_OR(name, other) CASE_HERE(name)
#define CASE_S(name)         .if 0
#else
#define CASE(name)           .if 0
#define CASE_ALL(name)       CASE_HERE(name)
#define CASE_OR(name, other) CASE_HERE(other)
#define CASE_S(name)         CASE_HERE(name)
#endif

// Ends the case as skipped where something optional is missing.
#define NEED(features)     li a0, features; call ctr_need
#define NEED_CTL(m, vs)    li a0, m; li a1, vs; call ctr_need_controls
// Delegation of exceptions and of interrupts; skips where the registers don't hold the bits. From S the first word of each
// is M's business, and the firmware has delegated all to S.
#define DELEGATE(med, hed) li a0, med; li a1, hed; call ctr_delegate
#define DELEGATE_INT(mid, hid) li a0, mid; li a1, hid; call ctr_delegate_int
// The greatest depth that there is; afterwards s4 is its number of entries.
#define GREATEST_DEPTH     call ctr_greatest; mv s4, a0
// s4 becomes the number of entries.
#define ENTRIES_IN_S4      csrr t0, sctrdepth; li t1, 16; sll s4, t1, t0

// Where the case goes on after the next trap into M that no TRY waits for.
#define AFTER(label)       la t0, ctr_after; la t1, label; sd t1, 0(t0)

// Empties the records, sets the controls, and begins to record.
#define START(m, vs, after) \
        li a0, m; li a1, vs; la a2, after; call ctr_prepare; csrw mctrctl, a0
#define START_M(m) START(m, 0, ctr_unexpected)
// The same with the controls in a0 and a1.
#define START_REGS(after) la a2, after; call ctr_prepare; csrw mctrctl, a0
// Ends recording, in M.
#define HALT     csrci mctrctl, CTL_M | CTL_S | CTL_U

// Returns into a mode, at home; label 90 is the return. ENTER_S is for M alone.
#ifndef START_S
#define HOME_RETURN mret
#else
#define HOME_RETURN sret
#endif
#define ENTER_M(label)  la t0, label; csrw mepc, t0; li t0, STATUS_HOME_PP; csrs mstatus, t0; 90: HOME_RETURN
#define ENTER_S(label)  la t0, label; csrw mepc, t0; li t0, STATUS_MPP; csrc mstatus, t0; li t0, 1 << 11; csrs mstatus, t0; 90: mret
#define ENTER_U(label)  la t0, label; csrw mepc, t0; li t0, STATUS_HOME_PP; csrc mstatus, t0; 90: HOME_RETURN
#define ENTER_VS(label) la t0, label; csrw sepc, t0; li t0, STATUS_SPP; csrs mstatus, t0; li t0, STATUS_SPV; csrs hstatus, t0; 90: sret
#define ENTER_VU(label) la t0, label; csrw sepc, t0; li t0, STATUS_SPP; csrc mstatus, t0; li t0, STATUS_SPV; csrs hstatus, t0; 90: sret
// The same in HS or VS; label 92 is the return.
#define SRET_TO_S(label) la t0, label; csrw sepc, t0; li t0, STATUS_SPP; csrs sstatus, t0; 92: sret
#define SRET_TO_U(label) la t0, label; csrw sepc, t0; li t0, STATUS_SPP; csrc sstatus, t0; 92: sret
// In HS, into a guest.
#define SRET_TO_VS(label) la t0, label; csrw sepc, t0; li t0, STATUS_SPP; csrs sstatus, t0; li t0, STATUS_SPV; csrs hstatus, t0; 92: sret
#define SRET_TO_VU(label) la t0, label; csrw sepc, t0; li t0, STATUS_SPP; csrc sstatus, t0; li t0, STATUS_SPV; csrs hstatus, t0; 92: sret

// The records that are expected, oldest first. ROW may stand anywhere between LIST and END_LIST.
#define LIST      .pushsection .rodata.ctr, "a", @progbits; .balign 8; 97: .popsection
#define ROW(source, target, type) \
        .pushsection .rodata.ctr, "a", @progbits; .dword 1, source, target, type, __LINE__; .popsection
#define END_LIST  END_LIST_WITHOUT(0)
// The same, without the rows whose types are in the mask.
#define END_LIST_WITHOUT(types) CLOSE_LIST; la a0, 97b; li a1, types; call ctr_check_list
#define CLOSE_LIST .pushsection .rodata.ctr, "a", @progbits; .dword 0, 0, 0, 0, __LINE__; .popsection
#define NONE

// A register against a value or another register, a CSR against a value.
#define CHECK_EQ(reg, value)        mv a0, reg; li a1, value; li a2, __LINE__; li a3, 0; call ctr_check
#define CHECK_REGS(got, want)       mv a0, got; mv a1, want; li a2, __LINE__; li a3, 0; call ctr_check
#define CHECK_CSR(csr, value)       csrr a0, csr; li a1, value; li a2, __LINE__; li a3, 0; call ctr_check
// In a loop, with a number that tells which round failed.
#define CHECK_AT(number, reg, value) mv a3, number; mv a0, reg; li a1, value; li a2, __LINE__; call ctr_check
// One entry, by its number or by a register that has it, against its three parts.
#define CHECK_ENTRY(number, source, target, type) \
        li a0, number; la a1, source; la a2, target; li a3, type; li a4, __LINE__; call ctr_check_entry
#define CHECK_ENTRY_AT(reg, source, target, type) \
        mv a0, reg; la a1, source; la a2, target; li a3, type; li a4, __LINE__; call ctr_check_entry
// FROZEN in a word of sctrstatus.
#define IS_FROZEN(reg)  srli t0, reg, 31; andi t0, t0, 1; CHECK_EQ(t0, 1)
#define NOT_FROZEN(reg) srli t0, reg, 31; andi t0, t0, 1; CHECK_EQ(t0, 0)

// One instruction that may trap into M: a1 is the cause afterwards, or NO_TRAP. In any mode; it goes on behind it.
#define TRY(...) li s7, 1; li a1, NO_TRAP; __VA_ARGS__; li s7, 0
