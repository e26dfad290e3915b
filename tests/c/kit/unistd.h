/* What the programs here use of <unistd.h>. The kit's clang brings no headers. */
#ifndef KIT_UNISTD_H
#define KIT_UNISTD_H
#include <stddef.h>
#define STDIN_FILENO 0
#define STDOUT_FILENO 1
#define STDERR_FILENO 2
typedef __PTRDIFF_TYPE__ ssize_t;
ssize_t read(int file, void *bytes, size_t length);
ssize_t write(int file, const void *bytes, size_t length);
void _exit(int status) __attribute__((noreturn));
#endif
