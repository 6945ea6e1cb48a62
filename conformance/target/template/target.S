// The two functions that a target has. Neither may assume a stack.
#include "ctr.h"
        .text
        .globl  target_init, target_report
target_init:                            // in M, before anything else; may use t0 to t6
        ret
// a0 is the block of results, a1 its end (2,048 bytes; also the symbols begin_signature and end_signature). It has to
// bring them out, and doesn't return. Where a testbench or debugger reads the block from memory, a loop is enough.
target_report:
        j       target_report

        .data
        .balign 8
        .globl  ctr_nowhere
ctr_nowhere: .dword 0                   // an address where a fetch faults, since nothing is there; 0 if none is known
