/* Two segments from the kernel's link address on: code (read, execute), and data (read, write) of which the file has
 * no byte. */
OUTPUT_FORMAT(elf64-x86-64)
ENTRY(_start)

PHDRS
{
        code PT_LOAD FLAGS(5);
        data PT_LOAD FLAGS(6);
}

SECTIONS
{
        . = 0xFFFFFFFF80000000;
        .text : { *(.text) } :code
        . = ALIGN(4096);
        .bss (NOLOAD) : { *(.bss) } :data
        /DISCARD/ : { *(.data) *(.comment) *(.note .note.*) *(.eh_frame) }
}
