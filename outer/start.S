/* Entry of an outer kernel. The machine starts here at privilege level 0 with the trap stack's top in RSP, the number
 * of the first free frame in RDI and the number of frames in RSI: the two arguments of kernel_main, kept as they are.
 * Each delivery overwrites the trap stack from its top on, so the kernel moves to a stack of its own before anything
 * else. */
        .set    STACK_SIZE, 16384

        .section .text.start, "ax"
        .globl  _start
        .type   _start, @function
_start:
        movq    $stack_end, %rsp
        xorl    %ebp, %ebp
        call    kernel_main
        cli
halt:
        hlt
        jmp     halt
        .size   _start, . - _start

        .section .bss.stack, "aw", @nobits
        .balign 16
        .skip   STACK_SIZE
stack_end:

        .section .note.GNU-stack, "", @progbits
