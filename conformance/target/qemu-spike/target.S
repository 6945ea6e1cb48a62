// HTIF, as riscv-tests use it: the results go out as characters by tohost, then tohost gets 1, the end. For QEMU's board
// spike, for spike itself, and for testbenches that serve tohost.
#include "ctr.h"
        .section .tohost, "aw", @progbits
        .balign 64
        .globl  tohost, fromhost
        .type   tohost, @object
        .type   fromhost, @object
        .size   tohost, 8
        .size   fromhost, 8
tohost: .dword 0
        .balign 64
fromhost: .dword 0
        .text
        .globl  target_init, target_report
target_init:
        ret
target_report:                          // a0: the block of results, a1: its end
        la      t0, tohost
        la      t5, fromhost
        li      t6, 0x0101000000000000  // device 1, command 1: a character
1:
        ld      t1, 0(a0)
        li      t2, 60
2:
        srl     t3, t1, t2
        andi    t3, t3, 15
        addi    t4, t3, -10
        addi    t3, t3, '0'
        bltz    t4, 3f
        addi    t3, t3, 'a' - '0' - 10
3:
        or      t3, t3, t6
        sd      x0, 0(t5)
        sd      t3, 0(t0)
4:
        ld      t4, 0(t0)
        bnez    t4, 4b
        addi    t2, t2, -4
        bgez    t2, 2b
        li      t3, '\n'
        or      t3, t3, t6
        sd      x0, 0(t5)
        sd      t3, 0(t0)
5:
        ld      t4, 0(t0)
        bnez    t4, 5b
        addi    a0, a0, 8
        bne     a0, a1, 1b
        li      t3, 1
        sd      t3, 0(t0)
        j       .

        .data
        .balign 8
        .globl  ctr_nowhere
ctr_nowhere: .dword 0x18000000          // no memory and no device is there
