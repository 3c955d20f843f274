/* The attacker points RSP at the end of the root page table, and enters the gate: by a call, by a jump to its
 * first byte, and by a jump to offset 13 with WP clear in RAX, behind which nothing would stop a push to the
 * table.
 *
 * k: call 1 sets the handler.
 * i: the call's push is refused with code 3 at FFFF800000005FF8. The call stands at 70: 10 + 7 + 3e + 7 + a + a.
 * i: so is the push of PUSHFQ at the gate's first byte, 1000: WP is still set there.
 * k: behind 13 the gate loads RSP (17) before anything is pushed, and the body ran: number 99 (63), with the
 *     arguments that call 1 left, is BadCall, 1.
 * turns: 1 + 25, 1 + 1 + 1 + 13, 1 + 1 + 2 + 13, 3 + 1 + 1 + 1 + 2 + 3 + 1 (the body) + 9, 1: 26 + 16 + 17 + 21 +
 *     1 = 81.
 * No t line: the root is what it was. */
#include "attack.inc"
        own_stack
        nested  1, handler
        go_on_at by_jump
        movabs  $ROOT_PAGE + 4096, %rsp
        movabs  $GATE, %rax
        call    *%rax
by_jump:
        go_on_at by_window
        movabs  $ROOT_PAGE + 4096, %rsp
        jump_gate 0
by_window:
        return_to done
        movabs  $ROOT_PAGE + 4096, %rsp
        mov     $WINDOW, %eax
        mov     $99, %edi
        jump_gate 13
done:
        hlt
