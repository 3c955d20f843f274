/* The trap handler's entry, and the ways to CPL 3 and back (docs/MACHINE.md, 5.2). traps.h has what C sees. */
#include "nk.h"

        .set    FRAME_WORDS, 22
        .set    FRAME_CS, 18 * 8
        .set    FRAME_RSP, 20 * 8
        .set    RED_ZONE, 128

/* A delivery comes here on the trap stack with IF clear and the vector at RSP. Whether an error code stands behind it
 * doesn't follow from the vector, since INT 13 pushes none: RSP alone says it, as each delivery begins at the same
 * end. It is 3FC8 with an error code, 3FD0 without one, so that bit 3 tells them apart. */
        .section .text.trap_entry, "ax"
        .globl  trap_entry
        .type   trap_entry, @function
trap_entry:
        cld
        testb   $8, %spl
        jnz     has_error
        pushq   (%rsp)
        movq    $0, 8(%rsp)
has_error:
        pushq   %rax
        pushq   %rbx
        pushq   %rcx
        pushq   %rdx
        pushq   %rsi
        pushq   %rdi
        pushq   %rbp
        pushq   %r8
        pushq   %r9
        pushq   %r10
        pushq   %r11
        pushq   %r12
        pushq   %r13
        pushq   %r14
        pushq   %r15
        /* The frame goes below what was interrupted, past its red zone, or to the kernel's stack where a user was. From
         * then on nothing of it is on the trap stack, and C may set IF or fault. */
        movq    %rsp, %rsi
        movq    FRAME_RSP(%rsi), %rdi
        testb   $3, FRAME_CS(%rsi)
        jz      copy
        movq    kernel_stack(%rip), %rdi
copy:
        subq    $RED_ZONE + 8 * FRAME_WORDS, %rdi
        andq    $-16, %rdi
        movq    %rdi, %rsp
        movl    $FRAME_WORDS, %ecx
        rep movsq
        movq    %rsp, %rdi
        call    trap
        popq    %r15
        popq    %r14
        popq    %r13
        popq    %r12
        popq    %r11
        popq    %r10
        popq    %r9
        popq    %r8
        popq    %rbp
        popq    %rdi
        popq    %rsi
        popq    %rdx
        popq    %rcx
        popq    %rbx
        popq    %rax
        /* Vector and error code. */
        addq    $16, %rsp
        iretq
        .size   trap_entry, . - trap_entry

/* What a C function keeps is kept on the kernel's stack, and where that stands in kernel_stack: deliveries from CPL 3
 * go below it. The user begins with zeros in all registers but RSP, so that it learns nothing of the kernel's. */
        .section .text.enter_user, "ax"
        .globl  enter_user
        .type   enter_user, @function
enter_user:
        pushfq
        pushq   %rbx
        pushq   %rbp
        pushq   %r12
        pushq   %r13
        pushq   %r14
        pushq   %r15
        /* A delivery between the next instruction and IRETQ comes from CPL 0, and goes below RSP as it stands then. */
        movq    %rsp, kernel_stack(%rip)
        pushq   $NK_USER_SS
        pushq   %rsi
        pushq   %rdx
        pushq   $NK_USER_CS
        pushq   %rdi
        xorl    %eax, %eax
        xorl    %ebx, %ebx
        xorl    %ecx, %ecx
        xorl    %edx, %edx
        xorl    %esi, %esi
        xorl    %edi, %edi
        xorl    %ebp, %ebp
        xorl    %r8d, %r8d
        xorl    %r9d, %r9d
        xorl    %r10d, %r10d
        xorl    %r11d, %r11d
        xorl    %r12d, %r12d
        xorl    %r13d, %r13d
        xorl    %r14d, %r14d
        xorl    %r15d, %r15d
        iretq
        .size   enter_user, . - enter_user

        .section .text.leave_user, "ax"
        .globl  leave_user
        .type   leave_user, @function
leave_user:
        movq    %rdi, %rax
        movq    kernel_stack(%rip), %rsp
        popq    %r15
        popq    %r14
        popq    %r13
        popq    %r12
        popq    %rbp
        popq    %rbx
        popfq
        ret
        .size   leave_user, . - leave_user

        .section .bss.kernel_stack, "aw", @nobits
        .balign 8
kernel_stack:
        .skip   8

        .section .note.GNU-stack, "", @progbits
