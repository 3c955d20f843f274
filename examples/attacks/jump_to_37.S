/* The attacker jumps to the exit's MOV to CR0 at offset 37 with WP clear in RAX: right behind it the gate goes
 * back to the stack in R10, which is the attacker's.
 *
 * k: call 1 sets the handler.
 * c: the gate looks at what it loaded (40), goes round once more (45 to 29), and comes back with WP set: 01.
 * i: a store to the root is refused with code 3. It stands at 89: 10 + 7 + 3e + 9 + 5 + d is 70, and 8 + 7 + a
 *     more.
 * turns: 1 + 25 + 3 + 1 + 2, 12 in the gate (37, 40, 45, 29, 32, 37, 40, 45, 47, 50, 53, 54), 3 + 1 + 14 + 1: 63. */
#include "attack.inc"
        own_stack
        nested  1, handler
        return_to back
        mov     $WINDOW, %eax
        jump_gate 37
back:
        show_wp
        go_on_at done
        store   ROOT_PAGE
done:
        hlt
