/* The attacker writes MOV to CR0 and HLT into its page of data, as their complement; asks for a leaf that makes
 * that page executable for the supervisor; and jumps to the page as it is.
 *
 * k: call 3 for frame 68 (44), read-only and without XD, breaks rule 11: a leaf of a frame of data is user or not
 *     executable.
 * i: the page's own leaf has XD. Code 11 is hexadecimal: 17, present (1) and fetch (16), at the page's first byte.
 * turns: 1 + 1 + 1 + 1 + 25 + 1 + 12 (the fetch that faults, and the opening's handler) = 42. */
#include "attack.inc"
        own_stack
        movabs  $buffer, %rbx
        movl    $0x0B3FDDF0, (%rbx)
        notl    (%rbx)                  /* 0F 22 C0 F4 */
        nested  3, LEVEL1, ABSENT, 0x44021
        jmp     *%rbx
