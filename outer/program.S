/* What outer/build --user makes an object of: the program that it has linked, and the two symbols by which a kernel
 * finds it, program_NAME and program_NAME_end, where PROGRAM is the NAME. */
#define JOIN(one, other) one##other
#define SYMBOL(name) JOIN(program_, name)
#define END_OF(symbol) JOIN(symbol, _end)

        .section .rodata.program, "a", @progbits
        .balign 8
        .globl  SYMBOL(PROGRAM), END_OF(SYMBOL(PROGRAM))
SYMBOL(PROGRAM):
        .incbin "program"
END_OF(SYMBOL(PROGRAM)):

        .section .note.GNU-stack, "", @progbits
