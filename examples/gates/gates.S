/* The gates' text as an assembler writes it, to be put beside the bytes of crates/gate_text. It is linked at its place. */
        .intel_syntax noprefix
        .text
        .set    handler_slot, 0xFFFFFF8000002000
        .set    gate, 0xFFFFFF8000001000
entry:
        pushfq
        cli
        mov     r10, rsp
        mov     rax, cr0
        and     eax, 0xFFFEFFFF
        mov     cr0, rax
        cli
        movabs  rsp, 0xFFFFFF8000005000
        ud2                             /* the body's place */
leave_body:
        mov     rax, cr0
        or      eax, 0x10000
        mov     cr0, rax
        test    eax, 0x10000
        jz      leave_body
        mov     rsp, r10
        mov     rax, r9
        popfq
        ret
        .balign 64, 0xCC

        .set    vector, 0
        .rept   48
        push    vector
        {disp32} jmp trap
        .balign 8, 0xCC
        .set    vector, vector + 1
        .endr
trap:
        push    rax
set_wp:
        mov     rax, cr0
        or      eax, 0x10000
        mov     cr0, rax
        test    eax, 0x10000
        jz      set_wp
        pop     rax
        jmp     qword ptr [rip + handler_slot - (gate + 474)]    /* 474 is the next offset */
halt:
        hlt
        jmp     halt
        .balign 4096, 0xCC
