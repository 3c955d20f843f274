/* The attacker hides MOV to CR0 in the immediate of an ordinary instruction, to jump into its middle.
 *
 * protected: XOR EAX with a number of 32 bits is 35 and the number, lowest byte first. It stands at
 *     FFFFFFFF80000010, so that 0F 22 C0 is at 11. Nothing runs. */
#include "attack.inc"
        xor     $0x00C0220F, %eax
        hlt
