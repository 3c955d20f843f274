/* The attacker jumps to the gate's own MOV to CR0 at offset 13, with a CR0 of its choice in RAX: one with PG
 * clear, one with WP set, and one with WP clear, with which it hopes to come back.
 *
 * k: call 1 sets the handler, which goes on where the attacker says.
 * i: PG clear is #GP(0) at offset 13, 100d.
 * i: WP set goes on to the body's place, offset 27, which is 101b, and is a page fault on the nested stack (12.4,
 *     line 6).
 * k: WP clear comes to the body, which takes the registers as a call: number 99 (63), and the arguments that call
 *     1 left. There is no such call: answer 1, BadCall. The exit gate goes back by the stack in R10.
 * c: WP is set there: bits 16 to 23 of CR0 are 01.
 * i: a store to the root is refused with code 3. It stands at c0: from the start, 10, on 7 + 3e + 7 + 5 + d is 6e,
 *     7 + 5 + d more is 87, 5 + 5 + 9 + d more is a7, and 8 + 7 + a more is c0.
 * turns: 1 + 25, 1 + 1 + 2 + 13 (a fault that goes on), 1 + 1 + 2 + 3 + 13, 1 + 1 + 3 + 2 + 3 + 1 (the body) + 9
 *     (offsets 29 to 54), 3 + 1 + 14, 1: 26 + 17 + 20 + 20 + 18 + 1 = 102. */
#include "attack.inc"
        own_stack
        nested  1, handler
        go_on_at with_wp
        mov     $1, %eax
        jump_gate 13
with_wp:
        go_on_at without_wp
        mov     $0x80010001, %eax
        jump_gate 13
without_wp:
        mov     $WINDOW, %eax
        mov     $99, %edi
        return_to back
        jump_gate 13
back:
        show_wp
        go_on_at done
        store   ROOT_PAGE
done:
        hlt
