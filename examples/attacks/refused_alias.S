/* The attacker asks for a second, writable leaf for the root, in a free entry of the direct map, and stores by it.
 *
 * k: call 3, table 71 (47), entry 26 (1a), value with P, R/W, A, D and XD for frame 5. Rules 2 and 6 to 10 hold;
 *     rule 11 is broken: the frame's kind is Table(4), and the leaf is writable.
 * i: so the entry is still 0. Code 2 is a write that found no leaf. The store stands at 10 + 7 + 3e + a = 5f.
 * turns: 1 + 25 + 13 = 39. */
#include "attack.inc"
        own_stack
        nested  3, LEVEL1, ABSENT, 0x8000000000005063
        store   ABSENT_PAGE
