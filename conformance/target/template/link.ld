/* The memory of the target. The results need 2,048 bytes, a test takes 256 KiB at most. */
ENTRY(_start)
MEMORY
{
    ram (rwx) : ORIGIN = 0x80000000, LENGTH = 1M
}
SECTIONS
{
    .text : { *(.text.start) *(.text .text.*) } > ram
    .rodata : { *(.rodata .rodata.*) } > ram
    .data : { *(.data .data.*) *(.bss .bss.*) } > ram
    .ctr.cases 0 : { *(.ctr.cases) }    /* names; not loaded */
    /DISCARD/ : { *(.comment) *(.note .note.*) *(.riscv.attributes) }
}
