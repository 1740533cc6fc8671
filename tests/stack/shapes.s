# Functions for tests/stack/bound.py, whose depths can be counted by hand. Behind each stands what it needs: its return address (8 bytes), what it pushes and
# takes, and all 128 bytes of the red zone if it uses one of them. Those behind `refused` have no bound, for the reason that stands there. The first ones are
# also run on the painted stack of tests/stack/stack.c.
        .globl  takes_24, leaf_below, leaf_below_to_the_end, pushes_and_below, points_below, frame_below, calls_leaf, too_far, again
        .text
takes_24:                       # bound 32
        sub     $24, %rsp
        mov     %rdi, (%rsp)
        add     $24, %rsp
        ret
leaf_below:                     # bound 136
        mov     %rdi, -8(%rsp)
        ret
leaf_below_to_the_end:          # bound 136
        mov     %rdi, -128(%rsp)
        ret
pushes_and_below:               # bound 152
        push    %rbx
        push    %r12
        pxor    %xmm3, %xmm3
        movaps  %xmm3, -40(%rsp)
        pop     %r12
        pop     %rbx
        ret
points_below:                   # bound 136
        lea     -64(%rsp), %rax
        movq    $0, (%rax)
        ret
frame_below:                    # bound 144
        push    %rbp
        mov     %rsp, %rbp
        mov     %rdi, -16(%rbp)
        pop     %rbp
        ret
frame_above:                    # bound 48
        push    %rbp
        mov     %rsp, %rbp
        sub     $32, %rsp
        mov     %rdi, -32(%rbp)
        leave
        ret
no_frame:                       # bound 8
        mov     %rdi, %rbp
        mov     %rsi, -200(%rbp)
        ret
calls_leaf:                     # bound 152
        sub     $8, %rsp
        call    leaf_below@PLT
        add     $8, %rsp
        ret
jumps_to_leaf:                  # bound 136
        jmp     leaf_below@PLT
skips_padding:                  # bound 8
        jmp     1f
        # data16 data16 data16 data16 cs nopw 0x0(%rax,%rax,1)
        .byte   0x66, 0x66, 0x66, 0x66, 0x2e, 0x66, 0x0f, 0x1f, 0x84, 0, 0, 0, 0, 0
        1:
        ret
too_far:                        # refused: a byte 136 below the stack pointer
        mov     %rdi, -136(%rsp)
        ret
too_far_by_index:               # refused: a byte 129 below the stack pointer
        movb    $0, -129(%rsp,%rdi,1)
        ret
frame_too_far:                  # refused: a byte 144 below the stack pointer
        push    %rbp
        mov     %rsp, %rbp
        mov     %rdi, -144(%rbp)
        pop     %rbp
        ret
calls_too_far:                  # refused: a byte 136 below the stack pointer
        sub     $8, %rsp
        call    too_far@PLT
        add     $8, %rsp
        ret
again:                          # refused: recursion
        sub     $8, %rsp
        call    again@PLT
        add     $8, %rsp
        ret
by_pointer:                     # refused: a call through a pointer
        sub     $8, %rsp
        call    *%rdi
        add     $8, %rsp
        ret
unknown_size:                   # refused: sets the stack pointer in a way that is not understood
        sub     %rdi, %rsp
        add     %rdi, %rsp
        ret
        .section .note.GNU-stack, "", @progbits
