// Steps through each call of the library, instruction by instruction, and unwinds the stack at each: the way must lead to
// the function that made the call, and give its registers as they were.
#define _GNU_SOURCE
#include <signal.h>
#include <stdbool.h>
#include <stdint.h>
#include <stdio.h>
#include <stdlib.h>
#include <ucontext.h>
#include <unwind.h>

#include "../every/every.h"

enum { TRAP_FLAG = 0x100, KEPT = 6, LOOKS = 8, THEN_EACH = 997, ADDRESSES = 1 << 20 };

// The registers that a caller expects back, by their numbers in the tables and in the context of a signal.
static const int in_tables[KEPT] = {3, 6, 12, 13, 14, 15};
static const int in_context[KEPT] = {REG_RBX, REG_RBP, REG_R12, REG_R13, REG_R14, REG_R15};

static const every_call *call;
static volatile bool is_stepping;
static bool has_begun;
static uint64_t registers[KEPT];
static unsigned long steps, all_steps, looks, instructions;
static uint8_t seen[ADDRESSES]; // how often each instruction was looked at, by the last bits of its address

static void make_call(void);

// What a walk up the stack comes to.
typedef struct walk {
    bool is_found, is_same;
    unsigned frames;
} walk;

static _Unwind_Reason_Code look(struct _Unwind_Context *context, void *of)
{
    walk *w = of;
    w->frames++;
    const void *function = _Unwind_FindEnclosingFunction((void *)(_Unwind_GetIP(context) - 1));
    if ((uintptr_t)function != (uintptr_t)make_call)
        return _URC_NO_REASON;
    w->is_found = true;
    w->is_same = true;
    for (int i = 0; i < KEPT; i++)
        w->is_same &= _Unwind_GetGR(context, in_tables[i]) == registers[i];
    return _URC_END_OF_STACK;
}

static void step(int signal, siginfo_t *info, void *interrupted)
{
    (void)signal;
    (void)info;
    ucontext_t *context = interrupted;
    if (!is_stepping) {
        context->uc_mcontext.gregs[REG_EFL] &= ~(greg_t)TRAP_FLAG;
        return;
    }
    const uint64_t at = (uint64_t)context->uc_mcontext.gregs[REG_RIP];
    if (at == (uint64_t)(uintptr_t)call->run) {
        has_begun = true;
        for (int i = 0; i < KEPT; i++)
            registers[i] = (uint64_t)context->uc_mcontext.gregs[in_context[i]];
    }
    // An instruction that was looked at before is looked at now and then only: each look goes through all frames.
    if (!has_begun || (seen[at % ADDRESSES] == LOOKS && ++steps % THEN_EACH != 0))
        return;
    steps += seen[at % ADDRESSES] < LOOKS;
    instructions += seen[at % ADDRESSES] == 0;
    seen[at % ADDRESSES] += seen[at % ADDRESSES] < LOOKS;
    looks++;
    walk w = {0};
    _Unwind_Backtrace(look, &w);
    if (!w.is_found || !w.is_same) {
        fprintf(stderr, "step: %s, step %lu, at %#lx in %p: %s after %u frames\n", call->name, steps, (unsigned long)at,
                _Unwind_FindEnclosingFunction((void *)(uintptr_t)at),
                w.is_found ? "other registers" : "the caller is not found", w.frames);
        _Exit(1);
    }
}

// The flag has the processor stop behind each instruction; the handler takes it back once the call has returned.
__attribute__((noinline)) static void make_call(void)
{
    is_stepping = true;
    __asm__ volatile("pushfq\n\torq %0, (%%rsp)\n\tpopfq" : : "i"(TRAP_FLAG) : "memory", "cc");
    call->run();
    is_stepping = false;
}

int main(void)
{
    struct sigaction action = {.sa_sigaction = step, .sa_flags = SA_SIGINFO};
    if (sigaction(SIGTRAP, &action, NULL))
        return 2;
    for (size_t i = 0; i < every_count; i++) {
        call = &every[i];
        steps = 0;
        has_begun = false;
        call->prepare();
        make_call();
        if (number != call->expected || steps == 0) {
            fprintf(stderr, "step: %s gave %u after %lu steps\n", call->name, number, steps);
            return 1;
        }
        all_steps += steps;
    }
    printf("step: %zu calls, %lu steps: the stack is unwound at each of %lu instructions, %lu times in all\n", every_count,
           all_steps, instructions, looks);
    return 0;
}
