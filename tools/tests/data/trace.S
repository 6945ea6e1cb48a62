# A program for tools/trace: calls by both link registers, a tail call, a co-routine swap, SCTRCLR, a record that software
# writes, and a recursion that fills the record buffer. Its steps are told in tests/trace.py. Built by
#
#   riscv64-unknown-elf-gcc -march=rv64im_zicsr -mabi=lp64 -nostdlib -static -Wl,-Ttext=0x80000000,-z,max-page-size=4 \
#       -Wl,--no-warn-rwx-segments -o trace.elf trace.S

        .text
        .globl  _start
        .option norelax
_start:
        jal     ra, first               # 80000000
        jal     ra, swaps               # 80000004

first:
        addi    t1, ra, 0               # 80000008
        jal     t0, second              # 8000000c  a call by the other link register
        addi    ra, t1, 0               # 80000010
        jal     zero, last              # 80000014  a tail call

second:
        jalr    zero, 0(t0)             # 80000018  returns to 80000010

last:
        jalr    zero, 0(ra)             # 8000001c  returns for first, to 80000004

swaps:
        auipc   t0, 0                   # 80000020
        addi    t0, t0, 12              # 80000024  t0 is 8000002c
        jalr    ra, 0(t0)               # 80000028  from one link register by the other: a co-routine swap

other:
        .word   0x10400073              # 8000002c  sctrclr
        addi    t1, zero, 0x200         # 80000030
        csrrw   zero, 0x150, t1         # 80000034  siselect: entry 0
        addi    t2, zero, 0x41          # 80000038
        csrrw   zero, 0x151, t2         # 8000003c  sireg: its source is 40, with V
        jal     ra, deep                # 80000040

deep:
        jal     ra, deep                # 80000044  calls itself for ever
