/* The attacker points RSP at the end of the root page table, sets IF, and jumps to offset 13 with WP clear in RAX.
 * An interrupt comes right behind the load: a processor that pushed to RSP would write the table.
 *
 * k: call 1 sets the handler.
 * i: vector 47 is delivered at offset 16, which is 1010, on the trap stack, whatever RSP is. The plan makes it
 *     pending after 33 turns: 1 + 25 + 1 + 1 + 1 + 1 (STI) + 2 + 1 (the load at 13).
 * turns: 33, 1 + 10 + 2 (delivery, trap gate, handler), 1: 47. No t line: the root is what it was. */
#include "attack.inc"
        own_stack
        nested  1, handler
        go_on_at done
        movabs  $ROOT_PAGE + 4096, %rsp
        mov     $WINDOW, %eax
        sti
        jump_gate 13
done:
        hlt
