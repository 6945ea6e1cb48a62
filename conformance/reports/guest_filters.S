// A trap from VU into HS. "Virtualization Mode Transitions": where the mode before or after a transfer is VS or VU, the
// filter bits and RASEMU are those of vsctrctl. EXCINH is set there, so nothing may be recorded.
// Status 0: nothing was recorded. Status 1: the exception was, since EXCINH of mctrctl was asked.
        .globl  _start
_start:
        li      t0, -1                  // VU may reach all memory
        csrw    pmpaddr0, t0
        csrwi   pmpcfg0, 0x1f
        li      t0, 1 << 60 | 1 << 54   // mstateen0: HS may reach the records, by indirect access
        csrw    0x30c, t0
        li      t0, 1 << 8              // an ECALL from U or VU goes to HS
        csrw    medeleg, t0
        la      t0, handler
        csrw    stvec, t0
        la      t0, guest
        csrw    sepc, t0
        li      t0, 1 << 7              // hstatus.SPV, with mstatus.SPP 0: SRET goes to VU
        csrw    0x600, t0
        csrwi   0x34e, 1 << 1           // mctrctl: S
        li      t0, 1 << 33 | 1 << 0    // vsctrctl: EXCINH, and U, which is VU there
        csrw    0x24e, t0
        sret
guest:  ecall
        .balign 4
handler:
        li      t0, 0x200
        csrw    0x150, t0               // siselect: entry 0
        csrr    a0, 0x151               // sireg: its source, with V in bit 0
        andi    a0, a0, 1
end:    li      t0, 0x5555              // the test device of QEMU's board virt ends the run with the status
        beqz    a0, 1f
        li      t0, 1 << 16 | 0x3333
1:      li      t1, 0x100000
        sw      t0, 0(t1)
        j       .
