/* A loop of machine code that runs alike on nkrun, QEMU, Bochs and Unicorn: at any address, at CPL 0 in 64-bit mode.
 * LOOP is 1 for registers alone, 5 instructions an iteration, 2 for a mix of 20, or 3 for LOOP alone, which most turns
 * of a made image are. It ends by telling RAX on port E9, as 16 letters from a to p, and stops whoever runs it. With NATIVE it is a Linux program that writes RAX's bytes. */
        .section .text.start, "ax"
        .globl  _start
_start: leaq    table(%rip), %rbx
        leaq    stack_top(%rip), %rsp
        movq    count(%rip), %rcx
        xorl    %eax, %eax
        xorl    %edx, %edx

#if LOOP == 1
loop:   addq    %rcx, %rax
        xorq    %rax, %rdx
        addq    %rdx, %rax
        decq    %rcx
        jnz     loop
#elif LOOP == 3
loop:   loop    loop
#else
loop:   movq    (%rbx), %rdx            /* load */
        leaq    (%rdx,%rcx,2), %rdx
        movq    %rdx, 8(%rbx)           /* store */
        addq    %rdx, 16(%rbx)          /* read, modify, write */
        pushq   %rdx
        call    fold
        popq    %rdi
        cmpq    %rdi, %rdx
        jne     done                    /* never taken */
        subq    %rdi, %rax
        movl    %eax, (%rbx)
        incb    4(%rbx)
        andl    $255, %edi
        addq    24(%rbx,%rdi), %rax     /* load by an index, over the borders of words */
        decq    %rcx
        jnz     loop
        jmp     done
fold:   movzbl  16(%rbx), %edi
        xorq    %rdi, %rax
        rolq    $5, %rax
        ret
#endif

#ifdef NATIVE
done:   movq    %rax, (%rbx)
        movl    $1, %eax                /* write */
        movl    $1, %edi
        movq    %rbx, %rsi
        movl    $8, %edx
        syscall
        movl    $60, %eax               /* exit */
        xorl    %edi, %edi
        syscall
#else
done:   movq    %rax, %rdx
        movl    $16, %ecx
1:      rolq    $4, %rdx
        movl    %edx, %eax
        andl    $15, %eax
        addl    $'a', %eax
        outb    %al, $0xE9
        decl    %ecx
        jnz     1b
        outb    %al, $0xF4              /* ends QEMU, by its device isa-debug-exit */
        leaq    word(%rip), %rsi
        movw    $0x8900, %dx
2:      lodsb                           /* ends Bochs, by a word on its port 8900 */
        outb    %al, %dx
        testb   %al, %al
        jnz     2b
        hlt                             /* ends nkrun and Unicorn */
#endif

        .data
table:  .rept   64
        .quad   0x9E3779B97F4A7C15
        .endr
        .skip   512
stack_top:
count:  .ascii  "ITERATED"              /* in its place comes the number of iterations */
word:   .asciz  "Shutdown"
