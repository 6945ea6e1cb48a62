# A program for the tests of tools/record and tools/fold: calls, a tail call, a jump back as longjmp makes it, a handler,
# two functions that lead to each other by tail calls, and one that makes a tail call through a pointer. Built by
#     riscv64-unknown-elf-gcc -march=rv64im_zicsr -mabi=lp64 -nostdlib -static -Wl,--no-warn-rwx-segments \
#         -T ../../start/link.ld stacks.S -o stacks.elf

        .option norelax
        .section .text.start, "ax"
        .globl  _start

_start:
        jal     main
1:
        j       1b

main:
        jal     tailer
        la      t0, 2f
        jal     outer
2:
        jal     outer
        ret

tailer:
        j       hot                     # a tail call

hot:
        mv      s0, ra
        jal     leaf
        mv      ra, s0
        ret

leaf:
        ret

outer:
        jal     inner
        ret

inner:
        jal     thrower
        ret

thrower:
        jr      t0                      # back to main, by a return as longjmp makes it

handler:
        jal     leaf
        mret

even:
        jal     leaf
        j       odd                     # a tail call

odd:
        jal     even
        j       even                    # a tail call

chooser:
        jr      a0                      # a tail call through a pointer
