/* A painted stack on which a call runs, to see how much of it the call paints over. */
#ifndef STACK_PAINTED_H
#define STACK_PAINTED_H

#include <stddef.h>
#include <string.h>
#include <ucontext.h>

#define STACK_BYTES 4096u
#define SLOT 8u /* what the stack grows by */

static unsigned char stack[STACK_BYTES] __attribute__((aligned(64)));
static ucontext_t here, there;

/* A byte that a call leaves as it was painted does not count, so there are two paints. */
static size_t touched_over(void (*call)(void), int paint)
{
    size_t untouched = 0;
    memset(stack, paint, sizeof stack);
    getcontext(&there);
    there.uc_stack.ss_sp = stack;
    there.uc_stack.ss_size = sizeof stack;
    there.uc_link = &here;
    makecontext(&there, call, 0);
    swapcontext(&here, &there);
    while (untouched < sizeof stack && stack[untouched] == (unsigned char)paint)
        untouched++;
    return (sizeof stack - untouched + SLOT - 1) / SLOT * SLOT;
}

#endif
