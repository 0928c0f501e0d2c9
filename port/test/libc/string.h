/* As much of <string.h> as examples/valve.c needs on a bare board (port/board/memory.c). */
#ifndef BARE_STRING_H
#define BARE_STRING_H
#include <stddef.h>
void *memcpy(void *restrict to, const void *restrict from, size_t bytes);
#endif
