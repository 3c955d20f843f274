/* A user's program, as the kernel finds it in its image and maps it (programs.h): its head, code and constants, which
 * the user may execute, and from the next page on its data, which the user may write, with what starts as zeros last.
 * It is linked at 400000, or at the page that --defsym=PROGRAM_START=0x600000 names. */
OUTPUT_FORMAT(elf64-x86-64)
ENTRY(_start)
PROGRAM_START = DEFINED(PROGRAM_START) ? PROGRAM_START : 0x400000;
ASSERT(PROGRAM_START % 4096 == 0, "PROGRAM_START isn't the address of a page")

SECTIONS
{
        . = PROGRAM_START;
        .head : { QUAD(PROGRAM_START) QUAD(_start) QUAD(program_data) QUAD(program_zeros) QUAD(program_end) }
        .text : { *(.text .text.*) }
        .rodata : { *(.rodata .rodata.*) }
        . = ALIGN(4096);
        program_data = .;
        .data : { *(.data .data.*) }
        program_zeros = .;
        .bss : { *(.bss .bss.* COMMON) }
        program_end = .;
        /DISCARD/ : { *(.comment) *(.note .note.*) *(.eh_frame) }
}
