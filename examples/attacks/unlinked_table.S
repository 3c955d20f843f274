/* The attacker has a page table declared and linked, unlinks it, and writes it while no table names it: linked
 * again, it would map what it likes.
 *
 * k: call 3 makes the direct map's leaf of frame 72 (48) read-only; call 2 declares it as a table of level 1; call
 *     3 links it in entry 1 of the level 2 table, frame 70 (46), and clears that entry again: all accepted, 0.
 * k: call 3 for a writable leaf breaks rule 11: unlinked or not, the frame's kind is Table(1).
 * i: a store by the direct map finds the read-only leaf: code 3. It stands at 10 + 7 + 5 * 3e + a = 157.
 * turns: 1 + 5 * 25 + 13 = 139.
 * f, t: the table, which is empty, and the leaf. The entry of frame 70 is 0 as at the opening. */
#include "attack.inc"
        own_stack
        nested  3, LEVEL1, FREE, 0x8000000000048021
        nested  2, 1, FREE
        nested  3, LEVEL2, 1, 0x48027
        nested  3, LEVEL2, 1, 0
        nested  3, LEVEL1, FREE, 0x8000000000048063
        store   FREE_PAGE, 0x5063
