# Start code for a program that BOLT lays out anew (docs/from-samples-to-bolt.md), in mode U. A task begins at 80000000, and
# BOLT moves all code: what stands there is data to it, and leads to _start by a pointer, which BOLT mends.

        .section .entry, "a"
        .globl  first
first:
        auipc   t0, 0
        ld      t0, 16(t0)
        jr      t0
        nop
        .dword  _start

        .text
        .globl  _start
        .type   _start, @function
        .globl  enter
        .type   enter, @function
        .globl  trap
        .type   trap, @function

_start:
        la      sp, __stack_top
        la      t0, trap
        csrw    mtvec, t0               # a fault is then seen: the program counter is trap
        la      t0, enter
        csrw    mepc, t0
        li      t0, 0x1800
        csrc    mstatus, t0             # MPP 0: the return goes to mode U
        mret
        .size   _start, . - _start

enter:
        call    main
1:
        j       1b
        .size   enter, . - enter

        .balign 4
trap:
        j       trap
        .size   trap, . - trap
