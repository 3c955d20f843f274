/* The attacker has a page declared write-once, and wants to write it past the nested kernel: by a new writable
 * leaf, by its own leaf made writable again, and by a store to its address.
 *
 * k: call 3 makes the direct map's leaf of frame 72 (48) read-only; call 6 declares the page: region 256.
 * k: call 3 for a writable leaf in another entry, 26 (1a), and in the page's own, breaks rule 11: the kind is
 *     Guarded.
 * i: the store finds the read-only leaf: code 3. It stands at 10 + 7 + 4 * 3e + a = 119.
 * turns: 1 + 4 * 25 + 13 = 114.
 * f, t, r: the frame, the leaf, and the region of 4,096 bytes, all 0. */
#include "attack.inc"
        own_stack
        nested  3, LEVEL1, FREE, 0x8000000000048021
        nested  6, FREE_PAGE, 4096, 1
        nested  3, LEVEL1, ABSENT, 0x8000000000048063
        nested  3, LEVEL1, FREE, 0x8000000000048063
        store   FREE_PAGE
