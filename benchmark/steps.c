#include "steps.h"

static int counting;
static uint64_t traps, calls, overhead;
static uint64_t entry, lowest, deepest;
static uint8_t signal_stack[65536];
__attribute__((used)) static void (*target)(void);

// The flag is set, `target` is called with the caller's own arguments, and the flag is cleared.
__attribute__((naked)) static void through(void)
{
    __asm__("sub $8, %rsp\n"
            "pushfq\n"
            "orq $0x100, (%rsp)\n"
            "popfq\n"
            "call *target(%rip)\n"
            "pushfq\n"
            "andq $~0x100, (%rsp)\n"
            "popfq\n"
            "add $8, %rsp\n"
            "ret");
}

__attribute__((naked)) static void nothing(void) { __asm__("ret"); }

__attribute__((naked)) static void back(void) { __asm__("mov $15, %eax; syscall"); }

// The registers of the program stand in the signal's context: the stack pointer is the 16th number of those from byte 40 on.
static void trapped(int number, void *what, void *context)
{
    uint64_t stack = ((uint64_t *)((uint8_t *)context + 40))[15];
    (void)number, (void)what;
    traps++;
    if (!entry)
        entry = lowest = stack;
    if (stack < lowest)
        lowest = stack;
}

static void end_call(void)
{
    if (entry && entry + 8 - lowest > deepest)
        deepest = entry + 8 - lowest;
    entry = 0;
}

void (*steps_through(void (*f)(void)))(void)
{
    if (!counting)
        return f;
    end_call();
    calls++;
    target = f;
    return through;
}

void steps_count(int on) { counting = on; }

uint64_t steps_taken(void)
{
    uint64_t taken = traps - calls * overhead;
    traps = calls = 0;
    return taken;
}

uint64_t steps_stack(void)
{
    end_call();
    uint64_t most = deepest;
    deepest = 0;
    return most;
}

void steps_begin(void)
{
    struct { void *at; int flags; size_t size; } stack = {signal_stack, 0, sizeof signal_stack};
    // a handler with three arguments, on its own stack, with `back` to return
    struct { void (*handler)(int, void *, void *); uint64_t flags; void (*back)(void); uint64_t mask; } action = {trapped, 0x0c000004, back, 0};
    system_call(131, (long)&stack, 0, 0, 0);
    system_call(13, 5, (long)&action, 0, 8);
    // what the calls above add is seen at a function of one instruction
    steps_count(1);
    COUNTED(&nothing)();
    if (traps == 0) {
        print("single steps make no signals here\n");
        stop(1);
    }
    overhead = traps - 1;
    traps = calls = 0;
    steps_stack();
    steps_count(0);
}
