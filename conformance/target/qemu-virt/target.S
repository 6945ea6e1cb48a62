// QEMU's board virt: the results go out through the UART, one word of 16 digits a line; the test device ends the run.
#include "ctr.h"
        .text
        .globl  target_init, target_report
target_init:
        ret
target_report:                          // a0: the block of results, a1: its end
        li      t0, 0x10000000          // the UART
1:
        ld      t1, 0(a0)
        li      t2, 60
2:
        srl     t3, t1, t2
        andi    t3, t3, 15
        addi    t4, t3, -10
        addi    t3, t3, '0'
        bltz    t4, 3f
        addi    t3, t3, 'a' - '0' - 10
3:
        lbu     t4, 5(t0)               // wait for room
        andi    t4, t4, 0x20
        beqz    t4, 3b
        sb      t3, 0(t0)
        addi    t2, t2, -4
        bgez    t2, 2b
        li      t3, '\n'
        sb      t3, 0(t0)
        addi    a0, a0, 8
        bne     a0, a1, 1b
        li      t0, 0x100000            // the test device: the end
        li      t1, 0x5555
        sw      t1, 0(t0)
        j       .

        .data
        .balign 8
        .globl  ctr_nowhere
ctr_nowhere: .dword 0x18000000          // no memory and no device is there
