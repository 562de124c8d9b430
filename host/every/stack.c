// Measures how much stack each call takes: it runs on a stack filled with a pattern, and what no longer has it was used.
// Prints the call's name and the octets; where a call is made more than once, the most.
#define _GNU_SOURCE
#include <stdint.h>
#include <stdio.h>
#include <stdlib.h>
#include <string.h>
#include <ucontext.h>

#include "every.h"

enum { STACK_OCTETS = 1 << 20, PATTERN = 0xa5 };

static uint8_t stack[STACK_OCTETS] __attribute__((aligned(4096)));

static void nothing(void) {}

// The octets of the stack that `start` touches where it is all that runs there.
static size_t touched(void (*start)(void))
{
    ucontext_t here, there;
    memset(stack, PATTERN, sizeof stack);
    if (getcontext(&there))
        exit(2);
    there.uc_stack.ss_sp = stack;
    there.uc_stack.ss_size = sizeof stack;
    there.uc_link = &here;
    makecontext(&there, start, 0);
    if (swapcontext(&here, &there))
        exit(2);
    size_t untouched = 0;
    while (untouched < sizeof stack && stack[untouched] == PATTERN)
        untouched++;
    return sizeof stack - untouched;
}

// What a call took, beside one that does nothing.
static size_t measure(const every_call *call)
{
    call->prepare();
    const size_t took = touched(call->run) - touched(nothing);
    if (number != call->expected) {
        fprintf(stderr, "stack: %s gave %u, not %u\n", call->name, number, call->expected);
        exit(1);
    }
    return took;
}

int main(void)
{
    for (size_t i = 0; i < every_count;) {
        const char *name = every[i].name;
        size_t most = 0;
        for (; i < every_count && strcmp(every[i].name, name) == 0; i++) {
            const size_t took = measure(&every[i]);
            most = took > most ? took : most;
        }
        printf("%-34s %6zu\n", name, most);
    }
    return 0;
}
