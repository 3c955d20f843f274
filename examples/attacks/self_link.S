/* The attacker links a table into itself, the level 2 table and then the root: walked as a table of level 1, the
 * root would be a page that its own entry makes writable.
 *
 * k: call 3 with a link to frame 70 (46) in frame 70 breaks rule 10: a link in level 2 names a table of level 1.
 * k: so does the root, frame 5, in entry 0 of the root: a link in level 4 names a table of level 3.
 * i: so entry 0 of the root is still 0, and address 0 has no leaf: code 2. The store stands at 10 + 7 + 2 * 3e + a
 *     = 9d.
 * turns: 1 + 2 * 25 + 13 = 64. */
#include "attack.inc"
        own_stack
        nested  3, LEVEL2, 1, 0x46027
        nested  3, ROOT, 0, 0x5027
        store   0
