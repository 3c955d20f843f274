/* The attacker fills a writable translation of a frame of data, has its leaf made read-only, which leaves the
 * translation in the processor, has a page table declared in the frame, and stores by the translation that it
 * kept.
 *
 * k: call 3 makes the leaf of frame 72 (48) read-only: accepted, and translations stay.
 * c: the second store is done all the same, by the stale entry, and the byte is read back: 32. The frame is still
 *     data.
 * k: call 2 declares a table of level 1 in frame 72: it has no loose leaf any more. All translations are dropped.
 * i: the third store walks the tables, and finds the read-only leaf: code 3. It stands at a7: the start, 10, and 7
 *     + a + 3 + 3e + 3 + 2 + 2 + 3e.
 * turns: 1 + 1 + 1 + 25 + 1 + 1 + 1 + 25 + 12 (a store that faults, without a load) = 68.
 * f, t: the new table, and the leaf that call 3 wrote. The table is empty, so that it has no t line. */
#include "attack.inc"
        own_stack
        movabs  $FREE_PAGE, %rbx
        movb    $0x31, (%rbx)
        nested  3, LEVEL1, FREE, 0x8000000000048021
        movb    $0x32, (%rbx)
        mov     (%rbx), %al
        out     %al, $0xE9
        nested  2, 1, FREE
        movb    $0x33, (%rbx)
