# A kernel in M with two threads in U, a and b, which share one hart. A thread gives way by ECALL; the kernel then saves its
# registers and the records of its calls, and brings those of the other one, through siselect, sireg, sireg2, sireg3 and
# sctrstatus. Built as it is, it is right. Each of the words below makes one mistake of it:
#
#     NO_RECORDS      the records aren't saved and brought back
#     VALID_ONLY      entries that hold no transfer are left out when records are brought back
#     POINTER_LAST    sctrstatus is written behind the entries
#     NO_POINTER      sctrstatus isn't written
#     NO_TYPES        sireg3, the data word, isn't saved and brought back
#     FROZEN_STAYS    the kernel stops recording by FROZEN while it saves, and brings the saved word back as it is; thread a
#                     makes a fourth call after it came back
#     DEPTH_LAST      thread b has the depth 32, and sctrdepth is written behind the entries

#define sctrdepth  0x15f
#define sctrstatus 0x14f
#define siselect   0x150
#define sireg      0x151
#define sireg2     0x152
#define sireg3     0x153
#define ENTRIES    16

# Where a thread's context has what.
#define PC         0                    /* x1 to x31 stand at 8 to 248 */
#define STATUS     256
#define RECORDS    264                  /* source, target and data of each entry, the youngest first */
#define CONTEXT    (RECORDS + 24 * ENTRIES)

        .option norelax
        .section .text.start, "ax"
        .globl  _start

_start:
        la      t0, switch
        csrw    mtvec, t0
        la      t0, context_a
        la      t1, a_main
        sd      t1, PC(t0)
        la      t0, context_b
        la      t1, b_main
        sd      t1, PC(t0)
        la      s0, context_a
        j       bring

# A thread made an ECALL. Its context is mscratch's; the other one's comes next.
        .balign 4
switch:
        csrrw   x31, mscratch, x31
        sd      x1, 8(x31)
        sd      x2, 16(x31)
        sd      x5, 40(x31)
        sd      x6, 48(x31)
        sd      x7, 56(x31)
        sd      x8, 64(x31)
        sd      x9, 72(x31)
        sd      x10, 80(x31)
        csrr    t0, mepc
        addi    t0, t0, 4               # behind the ECALL
        sd      t0, PC(x31)
        mv      s0, x31
        csrr    t0, mscratch
        sd      t0, 248(s0)
#ifndef NO_RECORDS
#ifdef FROZEN_STAYS
        li      t0, 0x80000000          # FROZEN
        csrs    sctrstatus, t0
#endif
        csrr    t0, sctrstatus
        sd      t0, STATUS(s0)
        addi    a0, s0, RECORDS
        li      s1, 0x200               # the first entry
        li      t2, 0x200 + ENTRIES
save:
        csrw    siselect, s1
        csrr    t0, sireg
        sd      t0, 0(a0)
        csrr    t0, sireg2
        sd      t0, 8(a0)
#ifndef NO_TYPES
        csrr    t0, sireg3
        sd      t0, 16(a0)
#endif
        addi    a0, a0, 24
        addi    s1, s1, 1
        bne     s1, t2, save
#endif
        la      t0, context_a
        la      t1, context_b
        xor     s0, s0, t0              # the other one of the two
        xor     s0, s0, t1

# Brings the thread whose context is s0.
bring:
#ifndef NO_RECORDS
# The entries stand in the order of the pointer, so it has to be there before them.
#if !defined(POINTER_LAST) && !defined(NO_POINTER)
        ld      t0, STATUS(s0)
        csrw    sctrstatus, t0
#endif
        addi    a0, s0, RECORDS
        li      s1, 0x200
        li      t2, 0x200 + ENTRIES
write:
        csrw    siselect, s1
        ld      t0, 0(a0)
#ifdef VALID_ONLY
        andi    t1, t0, 1               # V
        beqz    t1, next
#endif
        csrw    sireg, t0
        ld      t0, 8(a0)
        csrw    sireg2, t0
#ifndef NO_TYPES
        ld      t0, 16(a0)
        csrw    sireg3, t0
#endif
next:
        addi    a0, a0, 24
        addi    s1, s1, 1
        bne     s1, t2, write
#ifdef POINTER_LAST
        ld      t0, STATUS(s0)
        csrw    sctrstatus, t0
#endif
#ifdef DEPTH_LAST
        la      t0, context_b
        xor     t0, t0, s0
        seqz    t0, t0                  # 32 entries for b, 16 for a
        csrw    sctrdepth, t0
#endif
#endif
        li      t0, 0x1800
        csrc    mstatus, t0             # to U
        ld      t0, PC(s0)
        csrw    mepc, t0
        csrw    mscratch, s0
        mv      x31, s0
        ld      x1, 8(x31)
        ld      x2, 16(x31)
        ld      x5, 40(x31)
        ld      x6, 48(x31)
        ld      x7, 56(x31)
        ld      x8, 64(x31)
        ld      x9, 72(x31)
        ld      x10, 80(x31)
        ld      x31, 248(x31)
        mret

# Thread a makes three calls, the third by a register, gives way, and stays where it comes back to.
a_main:
        jal     a_one
a_one:
        jal     a_two
a_two:
        call    a_three                 # AUIPC and JALR, since nothing is relaxed: an indirect call
a_three:
        ecall
#ifdef FROZEN_STAYS
        jal     a_four
a_four:
#endif
        j       .

# Thread b makes five calls and gives way.
b_main:
        jal     b_one
b_one:
        jal     b_two
b_two:
        jal     b_three
b_three:
        jal     b_four
b_four:
        jal     b_five
b_five:
        ecall
        j       .

        .section .bss
        .balign 8
context_a:
        .zero   CONTEXT
context_b:
        .zero   CONTEXT
