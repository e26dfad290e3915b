/*
 * What the program has instead of a C library: its start, its output, and memcmp, memcpy, memmove and memset, which the
 * code that is counted calls too. x86-64 Linux.
 */
#ifndef SYSTEM_H
#define SYSTEM_H

#include <stddef.h>
#include <stdint.h>
#include <string.h>

/* The program, given the first word of its command line, and its status. */
int run_program(const char *word);

/* A system call of up to four arguments. */
long system_call(long number, long a, long b, long c, long d);

/* Ends the program at once with status 2. */
__attribute__((noreturn)) void fail(const char *why);

/* ---- output */

void put_text(const char *text);
void put_number(size_t number);
void put_hexadecimal(size_t number);

/* In a field: text stands at its left, a number at its right. */
void put_text_in(size_t width, const char *text);
void put_number_in(size_t width, size_t number);

#endif
