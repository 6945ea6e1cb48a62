// A read of an entry in S. "State Enable Access Control": with mstateen0.CTR 0 the registers of the records are refused in
// S, and sireg to sireg3 of an entry are among them.
// Status 0: the read raised an illegal-instruction exception. Status 1: it didn't.
        .globl  _start
_start:
        li      t0, -1                  // S may reach all memory
        csrw    pmpaddr0, t0
        csrwi   pmpcfg0, 0x1f
        li      t0, 1 << 60             // mstateen0: CSRIND, for indirect access at all, and not CTR, bit 54
        csrw    0x30c, t0
        la      t0, handler
        csrw    mtvec, t0
        la      t0, supervisor
        csrw    mepc, t0
        li      t0, 1 << 11             // mstatus.MPP: MRET goes to S
        csrs    mstatus, t0
        li      t0, 0x200
        csrw    0x150, t0               // siselect: entry 0
        mret
supervisor:
        csrr    t0, 0x151               // sireg
        li      a0, 1
        j       end
        .balign 4
handler:
        csrr    a0, mcause
        addi    a0, a0, -2
end:    li      t0, 0x5555              // the test device of QEMU's board virt ends the run with the status
        beqz    a0, 1f
        li      t0, 1 << 16 | 0x3333
1:      li      t1, 0x100000
        sw      t0, 0(t1)
        j       .
