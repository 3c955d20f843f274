/* A ROM of 64 KiB in place of a BIOS, for QEMU and Bochs: it copies the program to 10000, maps the first 2 MiB to
 * themselves, enters 64-bit mode at CPL 0 with interrupts off, and jumps to the program. */
        .code16
        .text
rom:    .incbin "flat"
        .balign 8
gdt:    .quad   0, 0x00209A0000000000   /* selector 8: 64-bit code */
gdtr:   .word   gdtr - gdt - 1
        .long   0xF0000 + gdt - rom

copy:   movw    $0x1000, %ax
        movw    %ax, %es
        xorw    %si, %si
        xorw    %di, %di
        movw    $(gdt - rom), %cx
        rep     movsb %cs:(%si), %es:(%di)

        xorw    %ax, %ax                /* tables of level 4, 3 and 2 at 1000, 2000 and 3000 */
        movw    %ax, %ds
        movw    %ax, %es
        movw    $0x1000, %di
        movw    $0x1800, %cx
        rep     stosw
        movw    $0x2007, 0x1000
        movw    $0x3007, 0x2000
        movw    $0x0087, 0x3000         /* a page of 2 MiB */

        lgdtl   %cs:(gdtr - rom)
        movl    $0x20, %eax             /* PAE */
        movl    %eax, %cr4
        movl    $0x1000, %eax
        movl    %eax, %cr3
        movl    $0xC0000080, %ecx       /* EFER */
        movl    $0x100, %eax            /* LME */
        xorl    %edx, %edx
        wrmsr
        movl    $0x80000001, %eax       /* PG, PE */
        movl    %eax, %cr0
        ljmpl   $8, $0x10000

        .org    0xFFF0, 0xFF            /* the first instruction after a reset */
        ljmp    $0xF000, $(copy - rom)
        .org    0x10000, 0xFF
