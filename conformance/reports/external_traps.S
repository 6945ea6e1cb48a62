// A trap from VS into HS, with VS enabled and HS not. "External Traps": it is recorded where STE of the mode that takes it
// is set, which for HS is sctrctl.STE; STE of vsctrctl is for traps into VS.
// Status 0: it was recorded. Status 1: it wasn't, since vsctrctl.STE was asked too.
        .globl  _start
_start:
        li      t0, -1                  // VS may reach all memory
        csrw    pmpaddr0, t0
        csrwi   pmpcfg0, 0x1f
        li      t0, 1 << 60 | 1 << 54   // mstateen0: HS may reach the records, by indirect access
        csrw    0x30c, t0
        li      t0, 1 << 10             // an ECALL from VS goes to HS
        csrw    medeleg, t0
        la      t0, handler
        csrw    stvec, t0
        la      t0, guest
        csrw    sepc, t0
        li      t0, 1 << 8              // mstatus.SPP, with hstatus.SPV: SRET goes to VS
        csrs    mstatus, t0
        li      t0, 1 << 7
        csrw    0x600, t0
        li      t0, 1 << 8              // mctrctl: STE
        csrw    0x34e, t0
        csrwi   0x24e, 1 << 1           // vsctrctl: S, which is VS there
        sret
guest:  ecall
        .balign 4
handler:
        li      t0, 0x200
        csrw    0x150, t0               // siselect: entry 0
        csrr    a0, 0x151               // sireg: its source, with V in bit 0
        andi    a0, a0, 1
        xori    a0, a0, 1
end:    li      t0, 0x5555              // the test device of QEMU's board virt ends the run with the status
        beqz    a0, 1f
        li      t0, 1 << 16 | 0x3333
1:      li      t1, 0x100000
        sw      t0, 0(t1)
        j       .
