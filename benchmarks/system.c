#include "system.h"

enum { SYSTEM_WRITE = 1, SYSTEM_EXIT = 231 };
enum { STANDARD_OUTPUT = 1, STANDARD_ERROR = 2 };

long system_call(long number, long a, long b, long c, long d) {
    long result;
    register long fourth __asm__("r10") = d;
    __asm__ volatile("syscall"
                     : "=a"(result)
                     : "a"(number), "D"(a), "S"(b), "d"(c), "r"(fourth)
                     : "rcx", "r11", "memory");
    return result;
}

/* ---- output */

static char output[4096];
static size_t output_length;

static void flush_to(long file) {
    for (size_t done = 0; done < output_length;) {
        long written = system_call(SYSTEM_WRITE, file, (long)(output + done), (long)(output_length - done), 0);
        if (written <= 0) break;
        done += (size_t)written;
    }
    output_length = 0;
}

static void put_character(char character) {
    if (output_length == sizeof output) flush_to(STANDARD_OUTPUT);
    output[output_length++] = character;
}

static void put_spaces(size_t count) {
    while (count-- > 0) put_character(' ');
}

static void put_in_base(size_t number, unsigned base) {
    if (number >= base) put_in_base(number / base, base);
    put_character("0123456789abcdef"[number % base]);
}

void put_text(const char *text) {
    while (*text) put_character(*text++);
}

void put_number(size_t number) { put_in_base(number, 10); }

void put_hexadecimal(size_t number) { put_in_base(number, 16); }

void put_text_in(size_t width, const char *text) {
    size_t length = 0;
    while (text[length]) length++;
    put_text(text);
    if (length < width) put_spaces(width - length);
}

void put_number_in(size_t width, size_t number) {
    size_t length = 1;
    for (size_t rest = number; rest >= 10; rest /= 10) length++;
    if (length < width) put_spaces(width - length);
    put_number(number);
}

/* ---- the memory functions: by the widest part that fits; what is left over by one more that overlaps the last */

typedef size_t part64 __attribute__((ext_vector_type(8), aligned(1), may_alias));
typedef size_t part16 __attribute__((ext_vector_type(2), aligned(1), may_alias));
typedef size_t part8 __attribute__((aligned(1), may_alias));
typedef uint32_t part4 __attribute__((aligned(1), may_alias));
typedef uint16_t part2 __attribute__((aligned(1), may_alias));
typedef uint8_t part1;

#define COPY(part, at) *(part *)(target + (at)) = *(const part *)(source + (at))
#define FILL(part, at) *(part *)(target + (at)) = (part)filling
#define BY_PARTS(part, move)                                                             \
    if (n >= sizeof(part)) {                                                             \
        for (size_t at = 0; at <= n - sizeof(part); at += sizeof(part)) move(part, at);  \
        if (n % sizeof(part) != 0) move(part, n - sizeof(part));                         \
        return to;                                                                       \
    }
/* The same where parts may overlap what was written before them: the last one is read first. */
#define DOWN_BY_PARTS(part, move)                                                        \
    if (n >= sizeof(part)) {                                                             \
        const part last = *(const part *)(source + n - sizeof(part));                    \
        for (size_t at = 0; at < n - sizeof(part); at += sizeof(part)) move(part, at);   \
        *(part *)(target + n - sizeof(part)) = last;                                     \
        return to;                                                                       \
    }
#define BY_WIDEST_PARTS(by_parts, move)                                                  \
    by_parts(part64, move)                                                               \
    by_parts(part16, move)                                                               \
    by_parts(part8, move)                                                                \
    by_parts(part4, move)                                                                \
    by_parts(part2, move)                                                                \
    by_parts(part1, move)

void *memcpy(void *to, const void *from, size_t n) {
    uint8_t *target = to;
    const uint8_t *source = from;
    BY_WIDEST_PARTS(BY_PARTS, COPY)
    return to;
}

/* Bytes are moved down by parts; up, which nothing here does often, one by one from the last. */
void *memmove(void *to, const void *from, size_t n) {
    uint8_t *target = to;
    const uint8_t *source = from;
    if (target <= source) {
        BY_WIDEST_PARTS(DOWN_BY_PARTS, COPY)
        return to;
    }
    while (n-- > 0) target[n] = source[n];
    return to;
}

void *memset(void *to, int byte, size_t n) {
    uint8_t *target = to;
    const size_t filling = (size_t)(uint8_t)byte * 0x0101010101010101;
    BY_WIDEST_PARTS(BY_PARTS, FILL)
    return to;
}

int memcmp(const void *a, const void *b, size_t n) {
    const uint8_t *first = a, *second = b;
    for (size_t i = 0; i < n; i++)
        if (first[i] != second[i]) return first[i] - second[i];
    return 0;
}

/* ---- start and end */

__attribute__((noreturn)) static void leave(int status) {
    for (;;) system_call(SYSTEM_EXIT, status, 0, 0, 0);
}

void fail(const char *why) {
    flush_to(STANDARD_OUTPUT);
    put_text("benchmarks: "), put_text(why), put_text("\n");
    flush_to(STANDARD_ERROR);
    leave(2);
}

/* The stack holds the number of words of the command line, and then their addresses. */
__asm__(".text\n.globl _start\n_start: mov %rsp, %rdi\n and $-16, %rsp\n call start\n");

__attribute__((noreturn, used)) static void start(const size_t *stack) {
    int status = run_program(stack[0] > 1 ? (const char *)stack[2] : "");
    flush_to(STANDARD_OUTPUT);
    leave(status);
}
