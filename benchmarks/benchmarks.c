#include "benchmarks.h"
#include "stepper.h"
#include "system.h"

static int is(const char *word, const char *name) {
    while (*word && *word == *name) word++, name++;
    return *word == *name;
}

int run_program(const char *word) {
    start_stepper();
    if (is(word, "counts")) return print_counts();
    if (is(word, "traces")) return compare_traces(0, 0);
    if (is(word, "traces-in-pieces")) return compare_traces(0, 1);
    if (is(word, "plain-traces")) return compare_traces(1, 0) | compare_traces(1, 1);
    fail("its word is counts, traces, traces-in-pieces or plain-traces");
}
