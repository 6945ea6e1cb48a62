// ctrsim has no device and shows no memory: the results are written into the record entries, where a sample shows them.
// A word w stands in an entry as the source 2 * (w mod 2^32) with V, and the target 2 * (w / 2^32).
#include "ctr.h"
        .text
        .globl  target_init, target_report, target_halt
target_init:
        ret
target_report:                          // a0: the block of results, a1: its end
        csrw    mctrctl, x0
        li      t0, 4                   // 256 entries
        csrw    sctrdepth, t0
        csrw    sctrstatus, x0
        li      t1, 0x200
1:
        csrw    siselect, t1
        ld      t2, 0(a0)
        slli    t3, t2, 32
        srli    t3, t3, 31
        ori     t3, t3, 1
        csrw    sireg, t3
        srli    t3, t2, 32
        slli    t3, t3, 1
        csrw    sireg2, t3
        csrw    sireg3, x0
        addi    t1, t1, 1
        addi    a0, a0, 8
        bne     a0, a1, 1b
target_halt:
        j       target_halt

        .data
        .balign 8
        .globl  ctr_nowhere
ctr_nowhere: .dword 0x18000000          // no memory and no device is there
