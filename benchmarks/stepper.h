/* Runs a call one instruction at a time: counts its instructions and keeps their addresses. */
#ifndef STEPPER_H
#define STEPPER_H

#include <stddef.h>

/* The value of a call of the function, which is stepped through. */
#define STEPPED(function, call) (step_through((size_t)(function)), (call))

/* The instructions of the last call that was stepped through, and the addresses of the first of them. */
enum { TRACE_MOST = 1 << 16 };
extern size_t step_count, step_trace[TRACE_MOST];

/* Makes the stepper ready, and sees that it counts rightly here. */
void start_stepper(void);

/* The next call of the function at this address is stepped through, from its first instruction to its return. */
void step_through(size_t function);

#endif
