/* on_stack.h: a call that is made on a stack of its own. For C programs that look at what a call does there; to be included once in a program. */
#ifndef ON_STACK_H
#define ON_STACK_H

#include <stdint.h>

/* Makes a call with as many of nine arguments as it has, the stack pointer at `top` before it. The last three are passed on the stack, in ABOVE bytes from the
 * stack pointer up. The registers that a call leaves alone hold where to go back to. */
#define ARGUMENTS 9
#define ABOVE 32
uint32_t call_on_stack(uint8_t *top, const void *call, const uint64_t arguments[ARGUMENTS]);
__asm__(".text\n"
        ".type call_on_stack, @function\n"
        "call_on_stack:\n"
        "    pushq %rbp\n"
        "    movq %rsp, %rbp\n"
        "    movq %rdi, %rsp\n"
        "    movq %rsi, %rax\n"
        "    movq %rdx, %r10\n"
        "    movq (%r10), %rdi\n"
        "    movq 8(%r10), %rsi\n"
        "    movq 16(%r10), %rdx\n"
        "    movq 24(%r10), %rcx\n"
        "    movq 32(%r10), %r8\n"
        "    movq 40(%r10), %r9\n"
        "    movq 48(%r10), %r11\n"
        "    movq %r11, (%rsp)\n"
        "    movq 56(%r10), %r11\n"
        "    movq %r11, 8(%rsp)\n"
        "    movq 64(%r10), %r11\n"
        "    movq %r11, 16(%rsp)\n"
        "    callq *%rax\n"
        "    movq %rbp, %rsp\n"
        "    popq %rbp\n"
        "    retq\n"
        ".size call_on_stack, .-call_on_stack\n");

#endif
