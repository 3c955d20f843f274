/* Three segments, each on pages of its own: code (read, execute), constants (read), and data (read, write) with what
 * starts as zeros. Each begins a page further on at the place in the page where the one before ended, so that the file
 * has no padding between them: address and place in the file are equal modulo 4,096. The headers aren't loaded, and
 * the rest of each page is zeros. */
OUTPUT_FORMAT(elf64-x86-64)
ENTRY(_start)

PHDRS
{
        code PT_LOAD FLAGS(5);
        constants PT_LOAD FLAGS(4);
        data PT_LOAD FLAGS(6);
}

SECTIONS
{
        . = 0xFFFFFFFF80000000 + SIZEOF_HEADERS;
        .text : { *(.text.start) *(.text .text.*) } :code
        . = ALIGN(4096) + (. & 4095);
        .rodata : { *(.rodata .rodata.*) } :constants
        . = ALIGN(4096) + (. & 4095);
        .data : { *(.data .data.*) } :data
        .bss : { *(.bss .bss.* COMMON) } :data
        /DISCARD/ : { *(.comment) *(.note .note.*) *(.eh_frame) }
}
