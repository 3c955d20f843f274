/* The attacker stores a writable leaf for the direct map's own level 1 table into that table, by the direct map.
 *
 * i: the leaf of frame 71 has no R/W (docs/MACHINE.md, 4), and WP is set. Code 3 is present (1) and write (2). The
 *     store stands 10 bytes behind the start, at FFFFFFFF8000001A; the entry of frame 71 is at 71 * 8 = 238 in it.
 * turns: 13, the store with its load and the opening's handler.
 * trap: the opening's handler, offset 474 of the gates. No t line: no entry has changed. */
#include "attack.inc"
        store   LEVEL1_PAGE+LEVEL1*8, 0x47063
