# Start code: a task begins at 80000000 in mode M with all registers 0, so it has to set what C code relies on.

        .section .text.start, "ax"
        .globl  _start
        .globl  enter
        .globl  trap

_start:
        .option push
        .option norelax
        la      gp, __global_pointer$   # where small data is found; without it loads from there fault
        .option pop
        la      sp, __stack_top         # the end of memory, from where the stack grows down
#ifdef LIBC
        la      tp, __tls_start         # the block of thread-local variables, as errno of a C library
#else
        li      tp, 0                   # no thread
#endif
        la      t0, trap
        csrw    mtvec, t0               # a fault is then seen: the program counter of the sample is trap
#ifdef USER
        la      t0, enter
        csrw    mepc, t0
        li      t0, 0x1800
        csrc    mstatus, t0             # MPP 0: the return goes to mode U
        mret
#endif

enter:
        call    main
1:
        j       1b                      # a local label, so that no tool takes it for a function

        .balign 4
trap:
        j       trap
