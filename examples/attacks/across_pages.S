/* The attacker lays MOV to CR0 across two pages of code, as the end of one ordinary instruction and the start of
 * the next: B8 00 00 00 0F is MOV to EAX, and 22 C0 is AND of AL with itself.
 *
 * protected: the second page begins at FFFFFFFF80001000, and the 0F stands right before it. Nothing runs. */
#include "attack.inc"
        .org    0xFFB, 0x90
        mov     $0x0F000000, %eax
        .byte   0x22, 0xC0
        hlt
