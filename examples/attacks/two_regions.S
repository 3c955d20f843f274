/* The attacker has a page declared write-once, and wants a second region over the same bytes, in which they count
 * as never written; then one over the pool.
 *
 * k: call 3 makes the direct map's leaf of frame 72 (48) read-only; call 6 declares the page: region 256.
 * k: call 6 once more breaks rule 4, NotData: the frame's kind is Guarded now.
 * k: so does call 6 over the pool's first page, whose frame, 10, is Guarded from the opening on.
 * k: call 9 writes 61: accepted. 62 breaks rule 24, WrittenOnce; in region 257 (101) it breaks rule 19, BadRegion:
 *     there is none, and nothing is read.
 * turns: 1 + 4 * 25 + 1 + 25 + 1 + 2 * 25 + 1 = 179.
 * f, t, r: the frame, the leaf, and the region of 4,096 bytes, the first one 61. */
#include "attack.inc"
        own_stack
        nested  3, LEVEL1, FREE, 0x8000000000048021
        nested  6, FREE_PAGE, 4096, 1
        nested  6, FREE_PAGE, 4096, 1
        nested  6, POOL, 4096, 1
        movb    $0x61, buffer
        nested  9, 256, 0, buffer, 1
        movb    $0x62, buffer
        nested  9, 256, 0, buffer, 1
        nested  9, 257, 0, buffer, 1
        hlt
