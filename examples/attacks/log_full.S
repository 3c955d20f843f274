/* The attacker fills the write log, and writes what it wants unseen into a write-log region.
 *
 * k: call 7 allocates 16 bytes (10) with policy 4: region 256 (100) at the pool's first byte.
 * k: 2,621 times call 9 writes the byte 61: accepted. Each record takes 24 bytes and its own one, so 65,525 of
 *     65,536.
 * k: the byte 62 breaks rule 26, LogFull: 25 bytes exceed the 11 that are left.
 * turns: 1 + 1 + 25 + 1, 2,621 * (25 + 2), 1 + 25 + 1: 28 + 70,767 + 27 = 70822.
 * r, l: the region's first byte is still 61, and there are 2,621 records. log_full.awk writes the text by these
 *     numbers. */
#include "attack.inc"
        own_stack
        movb    $0x61, buffer
        nested  7, 16, 4
        mov     $2621, %r12d
again:
        nested  9, 256, 0, buffer, 1
        dec     %r12d
        jnz     again
        movb    $0x62, buffer
        nested  9, 256, 0, buffer, 1
        hlt
