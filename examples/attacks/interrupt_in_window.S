/* The attacker sets IF, jumps to offset 13 with WP clear in RAX, and an interrupt comes right behind the load,
 * before the CLI at 16: its handler is the attacker's. Then it returns by IRETQ to the place that was interrupted.
 *
 * k: call 1 sets the handler.
 * i: vector 32 has no error code; offset 16 is 1010. The plan makes it pending after 32 turns: 1 + 25 + 1 + 1 + 1
 *     (STI) + 2 + 1 (the load at 13).
 * c: the trap gate has set WP before the handler ran: 01.
 * i: the return to offset 16 goes on with WP set, and ends at the body's place in the page fault on the nested
 *     stack.
 * turns: 32, 1 + 10 + 2 (delivery, trap gate, handler), 3 + 1, 7 (five pushes, one load, IRETQ), 2 (16 and 17),
 *     13, 1: 72. */
#include "attack.inc"
        own_stack
        nested  1, handler
        go_on_at back
        mov     $WINDOW, %eax
        sti
        jump_gate 13
back:
        show_wp
        go_on_at done
        push    $0x10                   /* SS, RSP, RFLAGS, CS, RIP */
        push    $stack_top
        push    $2
        push    $8
        movabs  $GATE + 16, %rax
        push    %rax
        iretq
done:
        hlt
