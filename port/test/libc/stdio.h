/* As much of <stdio.h> as examples/valve.c needs on a bare board (../libc.c). */
#ifndef BARE_STDIO_H
#define BARE_STDIO_H
#define stdout 1
#define stderr 2
int printf(const char *format, ...);
int fprintf(int stream, const char *format, ...);
#endif
