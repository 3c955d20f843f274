/* The attacker wants an address that isn't canonical in the slot with the trap handler, so that the trap gate
 * faults in its own jump: by call 1, by a store to the slot where the nested kernel has it, and by the direct map.
 *
 * k: call 1 sets the handler. With 0000800000000000 it breaks rule 27, NotCanonical.
 * i: a store to the slot is refused with code 3. It stands at 10 + 7 + 2 * 3e + a + 7 + a = ae.
 * i: so is one by the direct map, whose leaf of frame 2 is read-only. It stands 3 + 7 + a behind, at c2.
 * turns: 1 + 2 * 25 + 1, 1 + 14, 1 + 14, 1: 83.
 * trap: the handler that call 1 set. */
#include "attack.inc"
        own_stack
        nested  1, handler
        nested  1, 0x800000000000
        movabs  $0x800000000000, %rbx
        go_on_at by_direct_map
        movabs  $SLOT, %rax
        mov     %rbx, (%rax)
by_direct_map:
        go_on_at done
        movabs  $SLOT_PAGE, %rax
        mov     %rbx, (%rax)
done:
        hlt
