/* What the two processes do. The kernel copies this to a frame, so nothing here names an address of the image. Both keep
 * a number in EBX: that each says its own shows that the kernel keeps their registers apart. */
#include "processes.h"

        .section .rodata
        .globl  programs, programs_end, counter, intruder
programs:
/* Says 1 to 4, and ends. */
counter:
        xorl    %ebx, %ebx
again:
        incl    %ebx
        call    say_and_wait
        cmpl    $4, %ebx
        jb      again
        movl    $END, %eax
        int     $NK_USER_VECTOR

/* Says 101 and 102, and stores to the kernel's first byte. */
intruder:
        movl    $101, %ebx
        call    say_and_wait
        incl    %ebx
        call    say_and_wait
        movb    $1, NK_IMAGE

/* Says EBX, and waits till the timer has come. Only the kernel can change the clock: so what ends the loop is that it
 * was interrupted. */
say_and_wait:
        movl    $SAY, %eax
        movl    %ebx, %edi
        int     $NK_USER_VECTOR
        movq    CLOCK_PAGE, %rcx
wait:
        cmpq    %rcx, CLOCK_PAGE
        je      wait
        ret
programs_end:

        .section .note.GNU-stack, "", @progbits
