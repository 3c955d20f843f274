/* The attacker's second write to a write-once byte is refused; forged_journal.journal is the run's text with that
 * answer changed to 0, which says that the write was accepted.
 *
 * k: call 7 allocates 16 bytes (10) with policy 1: region 256 (100) at the pool's first byte.
 * k: call 9 writes one byte, 61, from the page of data: accepted. The next, 62, breaks rule 24, WrittenOnce.
 * turns: 1 + 25 + 1 + 25 + 1 + 25 + 1 = 79.
 * r: the region, policy 1, 16 bytes, the first one 61.
 *
 * The replay of the forgery makes the calls again, gets 24 and not 0 in line 3, and says so: journal line 3. */
#include "attack.inc"
        own_stack
        nested  7, 16, 1
        movb    $0x61, buffer
        nested  9, 256, 0, buffer, 1
        movb    $0x62, buffer
        nested  9, 256, 0, buffer, 1
        hlt
