/* The attacker writes a write-once byte a second time: alone, within a longer write, and by a store to the pool.
 *
 * k: call 7 allocates 16 bytes (10) with policy 1: region 256 (100) at the pool's first byte.
 * k: call 9 writes one byte, 61, from the page of data: accepted. The same place with 62 breaks rule 24,
 *     WrittenOnce.
 * k: two bytes, 62 and 00, break it too: one byte of the range was written before.
 * i: the pool's pages are read-only: code 3. The store stands at 10 + 7 + 3e + 8 + 3e + 8 + 2 * 3e + a = 129.
 * turns: 1 + 25 + 1 + 25 + 1 + 25 + 25 + 13 = 116.
 * r: the first byte is still 61, and the others are 0. */
#include "attack.inc"
        own_stack
        nested  7, 16, 1
        movb    $0x61, buffer
        nested  9, 256, 0, buffer, 1
        movb    $0x62, buffer
        nested  9, 256, 0, buffer, 1
        nested  9, 256, 0, buffer, 2
        store   POOL
