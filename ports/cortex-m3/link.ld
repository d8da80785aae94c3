/* Where a program's parts stand on the LM3S6965: 256 KB of flash, 64 KB of memory, the main stack at its end. */
MEMORY
{
    flash : ORIGIN = 0, LENGTH = 256K
    memory : ORIGIN = 0x20000000, LENGTH = 64K
}
SECTIONS
{
    .text : { KEEP(*(.vectors)) *(.text*) *(.rodata*) } > flash
    .data : { data_begins = .; *(.data*) . = ALIGN(4); data_ends = .; } > memory AT > flash
    data_in_flash = LOADADDR(.data);
    .bss (NOLOAD) : { bss_begins = .; *(.bss*) *(COMMON) . = ALIGN(4); bss_ends = .; } > memory
    stack_top = ORIGIN(memory) + LENGTH(memory);
    /DISCARD/ : { *(.ARM.exidx*) *(.comment) }
}
