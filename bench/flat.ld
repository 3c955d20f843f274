/* Three segments, each on pages of its own that stand in the file as in memory, from the link address on: so what
 * objcopy makes of it flat is the program as it is loaded. A kernel's image is linked by outer/outer.ld. */
OUTPUT_FORMAT(elf64-x86-64)
ENTRY(_start)

PHDRS
{
        code PT_LOAD FLAGS(5);
        constants PT_LOAD FLAGS(4);
        data PT_LOAD FLAGS(6);
}

SECTIONS
{
        . = 0xFFFFFFFF80000000;
        .text : { *(.text.start) *(.text .text.*) } :code
        . = ALIGN(4096);
        .rodata : { *(.rodata .rodata.*) } :constants
        . = ALIGN(4096);
        .data : { *(.data .data.*) } :data
        .bss : { *(.bss .bss.* COMMON) } :data
        /DISCARD/ : { *(.comment) *(.note .note.*) *(.eh_frame) }
}
