# A ROM of 64 KiB in place of a BIOS: it brings QEMU's PC from reset into 64-bit mode at CPL 0, with the descriptor
# tables and the kernel slot that the recorder wrote into memory before, and stays at `ready`.
#
# It runs where it stands below 4 GiB, so that the copy at F0000 may be hidden. Its own page tables lie past all
# frames of a machine: the first GiB and the last of 4 GiB are mapped to themselves, and entry 511 of the root is the
# kernel slot.
        .set    TABLES, 0x10000000
        .set    ROM, 0xFFFF0000
        .text
start:
        .code16
real:   lgdtl   %cs:(first_gdtr - start)
        movl    $0x11, %eax                     # PE, ET
        movl    %eax, %cr0
        ljmpl   $0x18, $(ROM + protected - start)

        .code32
protected:
        movw    $0x10, %ax
        movw    %ax, %ds
        movw    %ax, %es
        movl    $TABLES, %edi                   # root, level 3, and two tables of level 2
        xorl    %eax, %eax
        movl    $0x1000, %ecx
        rep     stosl
        movl    $(TABLES + 0x1027), TABLES
        movl    $0x6027, TABLES + 0xFF8         # the kernel slot
        movl    $(TABLES + 0x2027), TABLES + 0x1000
        movl    $(TABLES + 0x3027), TABLES + 0x1018
        movl    $TABLES + 0x2000, %edi
        movl    $0xE3, %eax                     # large pages of the first GiB
1:      movl    %eax, (%edi)
        addl    $8, %edi
        addl    $0x200000, %eax
        cmpl    $0x400000E3, %eax
        jne     1b
        movl    $0xFFE000E3, TABLES + 0x3FF8    # and the page of the ROM

        movl    $0x20, %eax                     # PAE
        movl    %eax, %cr4
        movl    $TABLES, %eax
        movl    %eax, %cr3
        movl    $0xC0000080, %ecx               # EFER: LME, NXE
        movl    $0x900, %eax
        xorl    %edx, %edx
        wrmsr
        movl    $0x80000011, %eax               # PG, ET, PE; WP waits for LTR, which writes by a page that may be read
        movl    %eax, %cr0
        ljmpl   $0x08, $(ROM + long - start)

        .code64
long:   movl    $0x100020, %eax                 # SMEP, PAE
        movq    %rax, %cr4
        movl    $(ROM + ready - start), %ebx
        lgdt    gdtr(%rip)
        movl    $0x10, %eax
        movl    %eax, %ss
        movl    $TABLES + 0x8000, %esp
        lidt    idtr(%rip)
        movl    $0x28, %eax
        ltr     %ax
        movl    $0x80010011, %eax
        movq    %rax, %cr0

        # memory in place of the hole from A0000 to FFFFF: PAM0 to PAM6, and D_OPEN of SMRAM, of the host bridge
        movl    $0x80000058, %eax
        movl    $0x33333000, %ecx
        call    configure
        movl    $0x8000005C, %eax
        movl    $0x33333333, %ecx
        call    configure
        movl    $0x80000070, %eax
        movl    $0x004A0000, %ecx
        call    configure
ready:  jmp     ready

configure:
        movw    $0xCF8, %dx
        outl    %eax, %dx
        movw    $0xCFC, %dx
        movl    %ecx, %eax
        outl    %eax, %dx
        ret

        .balign 8
first_gdt:
        .quad   0
        .quad   0x00AF9B000000FFFF              # 8: 64-bit code
        .quad   0x00CF93000000FFFF              # 10: data
        .quad   0x00CF9B000000FFFF              # 18: 32-bit code
first_gdtr:
        .word   first_gdtr - first_gdt - 1
        .long   ROM + first_gdt - start
gdtr:   .word   0x37
        .quad   0xFFFFFF8000000800
idtr:   .word   0x2FF
        .quad   0xFFFFFF8000000000

        .org    0xFFF0, 0xFF                    # the first instruction after a reset
        .code16
        jmp     real
        .org    0x10000, 0xFF
