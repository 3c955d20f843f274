/* The attacker jumps to the trap gate's MOV to CR0 at offset 457 with WP clear in RAX: a few bytes behind it the
 * gate jumps to the handler, which is the attacker's.
 *
 * k: call 1 sets the handler.
 * c: the gate looks at what it loaded (460), goes round once more (465 to 449), and jumps to the handler with WP
 *     set: 01.
 * i: a store to the root is refused with code 3. It stands at 89: 10 + 7 + 3e + 2 + 7 + 5 + d is 70, and 8 + 7 + a
 *     more.
 * turns: 1 + 25 + 1 + 1 + 1 + 2, 10 in the gate (457, 460, 465, 449, 452, 457, 460, 465, 467, 468), 2 in the
 *     handler, 3 + 1 + 14 + 1: 62. */
#include "attack.inc"
        own_stack
        nested  1, handler
        push    $0                      /* for the gate's POP */
        go_on_at back
        mov     $WINDOW, %eax
        jump_gate 457
back:
        show_wp
        go_on_at done
        store   ROOT_PAGE
done:
        hlt
