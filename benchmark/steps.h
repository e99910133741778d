// Counts the instructions of a call: the processor's single-step flag makes a signal after each.
#pragma once
#include "bare.h"

void steps_begin(void);
// From here on counted calls are counted, or run at full speed.
void steps_count(int on);
// Instructions of the counted calls since the last look, each with its last `ret`.
uint64_t steps_taken(void);
// The most bytes of stack that a counted call used since the last look, its return address among them.
uint64_t steps_stack(void);

// The function to call instead of `f`: the same, counted where counting is on.
#define COUNTED(f) ((__typeof__(f))steps_through((void (*)(void))(f)))
void (*steps_through(void (*f)(void)))(void);
