/* The attacker wants a delivery that finds no descriptor table, and so shuts the machine down: by clearing the
 * root's entry for the kernel slot, by a root of its own making, and by a root that is empty.
 *
 * k: call 3 makes the direct map's leaf of frame 72 (48) read-only.
 * k: call 3 for entry 511 (1ff) of the root, frame 5, breaks rule 8, KernelSlot.
 * k: call 5 with frame 72, which is data, breaks rule 14, NotRoot.
 * k: call 2 declares frame 72 as a table of level 4: it is empty but for the kernel slot's entry. Call 5 loads it.
 * i: INT3 is delivered all the same, since the kernel slot has descriptor table, gates and trap stack, and the
 *     image too. A trap pushes the next RIP: INT3 is one byte at 10 + 7 + 5 * 3e = 14d.
 * turns: 1 + 5 * 25 + 12 (INT3 with its delivery, the trap gate, and the opening's handler) = 138.
 * root, f, t: the new root, the leaf, and the kernel slot's entry: frame 6 and the low bits 027. */
#include "attack.inc"
        own_stack
        nested  3, LEVEL1, FREE, 0x8000000000048021
        nested  3, ROOT, 511, 0
        nested  5, FREE
        nested  2, 4, FREE
        nested  5, FREE
        int3
