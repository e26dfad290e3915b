/* What the programs here use of <string.h>. The kit's clang brings no headers. */
#ifndef KIT_STRING_H
#define KIT_STRING_H
#include <stddef.h>
void *memcpy(void *to, const void *from, size_t length);
void *memmove(void *to, const void *from, size_t length);
void *memset(void *bytes, int byte, size_t length);
void *memchr(const void *bytes, int byte, size_t length);
int memcmp(const void *one, const void *other, size_t length);
int strcmp(const char *one, const char *other);
#endif
