/* The memory of the task: the image from 80000000, zeros after it, the stack at its end. */
ENTRY(_start)

MEMORY
{
    ram (rwx) : ORIGIN = 0x80000000, LENGTH = DEFINED(memory) ? memory : 1M   /* at most MEM of the task line */
}

SECTIONS
{
    .text : { *(.text.start) *(.text .text.*) } > ram
    .rodata : { *(.rodata .rodata.*) *(.srodata .srodata.*) } > ram
    .data : { *(.data .data.*) __global_pointer$ = . + 0x800; *(.sdata .sdata.*) } > ram
    .tdata : { *(.tdata .tdata.*) } > ram               /* the block of the one thread, in which a C library has errno */
    .tbss (NOLOAD) : { *(.tbss .tbss.*) } > ram
    .bss (NOLOAD) : { . = . + SIZEOF(.tbss); *(.sbss .sbss.*) *(.bss .bss.*) *(COMMON) } > ram
    PROVIDE(__tls_start = ADDR(.tdata));
    PROVIDE(__heap_start = ALIGN(16));                  /* what malloc of a C library has: all but 64 KiB for the stack */
    PROVIDE(__heap_end = ORIGIN(ram) + LENGTH(ram) - (DEFINED(stack) ? stack : 64K));
    __stack_top = ORIGIN(ram) + LENGTH(ram);
    ASSERT(. + 1024 <= __stack_top, "no room for the stack")
    .riscv.attributes 0 : { *(.riscv.attributes) }   /* tells disassemblers that there is the extension M */
    /DISCARD/ : { *(.comment) *(.note .note.*) *(.eh_frame) }
}
