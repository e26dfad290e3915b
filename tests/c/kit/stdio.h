/* What the programs here use of <stdio.h>. The kit's clang brings no headers. */
#ifndef KIT_STDIO_H
#define KIT_STDIO_H
int dprintf(int file, const char *format, ...);
void perror(const char *what);
#endif
