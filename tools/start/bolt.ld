/* The memory of a task whose program BOLT lays out anew: 64 KiB, or --defsym=memory=N. What stands first is no code to BOLT. */
ENTRY(first)

MEMORY
{
    ram (rwx) : ORIGIN = 0x80000000, LENGTH = DEFINED(memory) ? memory : 64K
}

SECTIONS
{
    .entry : { *(.entry) } > ram
    .text : { *(.text .text.*) . = . + 16; } > ram      /* the gap parts it from data, whose addresses BOLT takes for code's */
    .rodata : { *(.rodata .rodata.*) *(.srodata .srodata.*) } > ram
    .data : { *(.data .data.*) *(.sdata .sdata.*) } > ram
    .bss (NOLOAD) : { *(.sbss .sbss.*) *(.bss .bss.*) *(COMMON) } > ram
    __stack_top = ORIGIN(ram) + LENGTH(ram);
    .riscv.attributes 0 : { *(.riscv.attributes) }
    /DISCARD/ : { *(.comment) *(.note .note.*) *(.eh_frame) }
}
