// What starts a suite in S where the target has no firmware.S of its own: M code as firmware has it. It opens memory and the
// registers of the records to S, delegates all that S can take, and goes to ctr_start in S with misa in a0. An ECALL from S
// is a call of the firmware: none is known, so a0 comes back as SBI's "not supported", and nothing else changes.
#define mstateen0  0x30c
#define ECALL_S    9

        .section .text.start, "ax"
        .globl  _start
_start:
        csrr    t0, mhartid
        bnez    t0, park                // one hart runs the test
        la      t0, pass_over           // what isn't there is left as it is
        csrw    mtvec, t0
        call    target_init
        li      t0, -1                  // S and U may reach all memory
        csrw    pmpaddr0, t0
        li      t0, 0x1f
        csrw    pmpcfg0, t0
        li      t0, 0x241 << 54         // the bits of the records, of indirect access, and of the registers below mstateen0
        csrs    mstateen0, t0
        csrw    mie, x0
        li      t0, ~(1 << ECALL_S | 1 << 11)
        csrw    medeleg, t0
        li      t0, -1
        csrw    mideleg, t0
        la      t0, firmware_trap
        csrw    mtvec, t0
        csrr    a0, misa
        li      t0, 3 << 11             // MPP
        csrc    mstatus, t0
        li      t0, 1 << 11
        csrs    mstatus, t0
        la      t0, ctr_start
        csrw    mepc, t0
        mret
park:
        wfi
        j       park

        .text
        .balign 64
pass_over:
        csrr    t6, mepc
        addi    t6, t6, 4
        csrw    mepc, t6
        mret

        .balign 64
firmware_trap:
        csrw    mscratch, t0
        csrr    t0, mcause
        addi    t0, t0, -ECALL_S
        bnez    t0, firmware_trap_end   // nothing else comes to M: the test doesn't come to its end
        csrr    t0, mepc
        addi    t0, t0, 4
        csrw    mepc, t0
        li      a0, -2
        csrr    t0, mscratch
        mret
firmware_trap_end:
        j       firmware_trap_end
