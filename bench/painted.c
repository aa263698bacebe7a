#define _GNU_SOURCE
#include "painted.h"

#include <string.h>
#include <ucontext.h>

static const uint64_t paint = 0xa5a5a5a5a5a5a5a5;

static uint64_t painted[1 << 14];
static ucontext_t here, there;

uintptr_t caller_stack;

size_t stack_taken(void (*make)(void))
{
    memset(painted, 0xa5, sizeof painted);
    getcontext(&there);
    there.uc_stack.ss_sp = painted;
    there.uc_stack.ss_size = sizeof painted;
    there.uc_link = &here;
    makecontext(&there, make, 0);
    swapcontext(&here, &there);
    size_t word = 0;
    while (painted[word] == paint)
        word++;
    const uint8_t *low = (const uint8_t *)&painted[word];
    while (*low == (uint8_t)paint)
        low++;
    // At a call the pointer is a multiple of 16 before what is handed over on the stack: so the calling convention has it.
    return (caller_stack & ~(uintptr_t)15) - (uintptr_t)low;
}
