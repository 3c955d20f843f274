/* The attacker writes MOV to CR0 and HLT into a free frame, as their complement, since its own code may not hold
 * them; has the frame mapped for a user, to write and to execute; and jumps there as the supervisor.
 *
 * k: call 3 is accepted: a leaf of a frame of data may be executable where it is user.
 * i: SMEP refuses the fetch. Code 11 is hexadecimal: 17, present (1) and fetch (16), at the page's first byte.
 * turns: 1 + 1 + 1 + 1 + 25 + 2 + 12 (the fetch that faults, and the opening's handler) = 43.
 * t: the leaf that call 3 wrote. */
#include "attack.inc"
        own_stack
        movabs  $FREE_PAGE, %rbx
        movl    $0x0B3FDDF0, (%rbx)
        notl    (%rbx)                  /* 0F 22 C0 F4 */
        nested  3, LEVEL1, ABSENT, 0x48067
        movabs  $ABSENT_PAGE, %rbx
        jmp     *%rbx
