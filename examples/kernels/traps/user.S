/* A user's code, copied to a page of its own. It asks the kernel by INT 47: RAX 1 prints the byte in RDI, RAX 2 ends
 * with the answer in RDI. Between, it waits till the kernel has written a byte that isn't 0 to its stack's first byte,
 * and tries HLT, which only the supervisor may use. */
        .section .rodata
        .globl  user_code, user_code_end
user_code:
        movl    $1, %eax
        movl    $'u', %edi
        int     $47
wait:
        cmpb    $0, -4096(%rsp)
        je      wait
        hlt
        movl    $1, %eax
        movl    $'v', %edi
        int     $47
        movl    $2, %eax
        movl    $42, %edi
        int     $47
user_code_end:

        .section .note.GNU-stack, "", @progbits
