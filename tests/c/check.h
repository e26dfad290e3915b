/* Checks that count: each holds a number to one that is written in the test. After so many that fail the rest is left out. */
#ifndef FAILED_MOST
#define FAILED_MOST 20
#endif

#include <stddef.h>
#include <stdint.h>
#include <stdio.h>
#include <string.h>
#include <unistd.h>

static unsigned passed, failed;
static const char *through = ""; /* the door in use */

/* The test's last line, and its exit status. */
static int report(const char *test) {
    if (failed) {
        dprintf(STDERR_FILENO, "%s: %u checks failed, %u passed\n", test, failed, passed);
        return 1;
    }
    dprintf(STDOUT_FILENO, "%s: %u checks passed\n", test, passed);
    return 0;
}

/* One check: its name, which of several it is, and what of it is looked at. */
static void check_of(const char *name, size_t which, const char *what, size_t got, size_t wanted) {
    if (got == wanted) {
        passed++;
        return;
    }
    dprintf(STDERR_FILENO, "FAILED: %s (%zu), %s: got %zu, wanted %zu%s\n", name, which, what, got, wanted, through);
    if (++failed == FAILED_MOST) _exit(report("the rest is left out"));
}

/* What a call says is at most what there is; where it says more, the test ends. */
static inline void demand(const char *name, size_t got, size_t most) {
    if (got <= most) return;
    check_of(name, most, "more than there is", got, most);
    _exit(report("the rest is left out"));
}

static void check(const char *name, size_t got, size_t wanted) { check_of(name, 0, "the answer", got, wanted); }

/* The first place where two runs of n bytes differ, or n. */
static size_t differ(const void *one, const void *other, size_t n) {
    const uint8_t *a = one, *b = other;
    size_t i = memcmp(a, b, n) == 0 ? n : 0;
    while (i < n && a[i] == b[i]) i++;
    return i;
}
