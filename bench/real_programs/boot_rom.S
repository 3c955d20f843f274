/* A ROM in place of a BIOS, for QEMU: it copies the image's bytes to 200000, maps the image's addresses to them by
 * pages of 2 MiB, enters 64-bit mode at CPL 0 with interrupts off, and jumps to the image's first byte. */
        .set    ROM_SIZE, 0x40000
        .set    ROM, -ROM_SIZE          /* where it stands, below 4 GiB */
        .set    IMAGE, 0x200000

        .text
rom:    .incbin "flat"
flat_end:

        .balign 16
gdt:    .quad   0
        .quad   0x00CF9A000000FFFF      /* selector 8: 32-bit code */
        .quad   0x00AF9A000000FFFF      /* selector 10: 64-bit code */
        .quad   0x00CF92000000FFFF      /* selector 18: data */
gdt_end:

        .code32
flat32: movl    $0x18, %eax
        movl    %eax, %ds
        movl    %eax, %es
        cld
        movl    $ROM, %esi
        movl    $IMAGE, %edi
        movl    $(flat_end - rom), %ecx
        rep     movsb

        movl    $0x2003, 0x1000         /* level 4 at 1000: the first and the last entry */
        movl    $0x2003, 0x1FF8
        movl    $0x3003, 0x2FF0         /* level 3 at 2000: entry 510, the image, and entry 3, this ROM */
        movl    $0x4003, 0x2018
        movl    $0x3000, %edi           /* level 2 at 3000: 16 MiB from 200000 on */
        movl    $(IMAGE | 0x83), %eax
        movl    $8, %ecx
1:      movl    %eax, (%edi)
        addl    $0x200000, %eax
        addl    $8, %edi
        loop    1b
        movl    $0xFFE00083, 0x4FF8     /* level 2 at 4000: the last 2 MiB below 4 GiB */

        movl    $0x20, %eax             /* PAE */
        movl    %eax, %cr4
        movl    $0x1000, %eax
        movl    %eax, %cr3
        movl    $0xC0000080, %ecx       /* EFER */
        movl    $0x100, %eax            /* LME */
        xorl    %edx, %edx
        wrmsr
        movl    $0x80000001, %eax       /* PG, PE */
        movl    %eax, %cr0
        ljmpl   $0x10, $(ROM + long64 - rom)

        .code64
long64: movq    $0xFFFFFFFF80000000, %rax
        jmp     *%rax

        .code16
        .org    ROM_SIZE - 0x40, 0xFF   /* in the last 64 KiB, which CS reaches after a reset */
flat16: lgdtl   %cs:(gdtr - rom - (ROM_SIZE - 0x10000))
        movl    $1, %eax                /* PE */
        movl    %eax, %cr0
        ljmpl   $8, $(ROM + flat32 - rom)
gdtr:   .word   gdt_end - gdt - 1
        .long   ROM + gdt - rom
        .org    ROM_SIZE - 0x10, 0xFF   /* the first instruction after a reset */
        jmp     flat16
        .org    ROM_SIZE, 0xFF
