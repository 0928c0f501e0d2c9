/* As much of <stdlib.h> as examples/valve.c needs on a bare board (../libc.c). */
#ifndef BARE_STDLIB_H
#define BARE_STDLIB_H
#define EXIT_SUCCESS 0
#define EXIT_FAILURE 1
_Noreturn void exit(int status);
#endif
