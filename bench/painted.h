// How much stack a call takes. It is made on a stack that was painted before; what is no longer paint afterwards was used.
#ifndef MULTEHEI_PAINTED_H
#define MULTEHEI_PAINTED_H

#include <stddef.h>
#include <stdint.h>

// Says where the caller's stack pointer is. It stands before the call in the function that makes it, and the compiler must put what is
// handed over on the stack there after it, as gcc does.
#define FROM_HERE() __asm__ volatile("mov %%rsp, %0" : "=m"(caller_stack))

extern uintptr_t caller_stack;

// The bytes of stack that are used below the place where `make` says FROM_HERE, arguments on the stack and return address with them.
size_t stack_taken(void (*make)(void));

#endif
