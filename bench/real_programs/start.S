/* The start and the end of a program that runs alike as an image of an outer kernel and as a program of Linux: a stack
 * of 64 KiB, the call of run_program with the number of rounds, and its answer told as 16 letters from a to p: on port
 * E9, or, with NATIVE, to the standard output. */
        .section .text.start, "ax"
        .globl  _start
_start: leaq    stack_end(%rip), %rsp
        xorl    %ebp, %ebp
        movq    rounds(%rip), %rdi
        call    run_program
        leaq    letters(%rip), %rbx
        movl    $16, %ecx
1:      rolq    $4, %rax
        movl    %eax, %edx
        andl    $15, %edx
        addl    $'a', %edx
        movb    %dl, (%rbx)
        incq    %rbx
        decl    %ecx
        jnz     1b

#ifdef NATIVE
        movl    $1, %eax                /* write */
        movl    $1, %edi
        leaq    letters(%rip), %rsi
        movl    $16, %edx
        syscall
        movl    $60, %eax               /* exit */
        xorl    %edi, %edi
        syscall
#else
        leaq    letters(%rip), %rsi
        movl    $16, %ecx
2:      lodsb
        outb    %al, $0xE9
        decl    %ecx
        jnz     2b
        outb    %al, $0xF4              /* ends QEMU, by its device isa-debug-exit */
3:      hlt                             /* ends nkrun */
        jmp     3b
#endif

        .data
rounds: .ascii  "ITERATED"              /* in its place comes the number of rounds */
        .bss
letters:
        .skip   16
        .balign 16
        .skip   65536
stack_end:
        .section .note.GNU-stack, "", @progbits
