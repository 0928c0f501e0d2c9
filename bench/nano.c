/* A peer: newlib's nano malloc, of which Debian has the source (package newlib), compiled for this machine. It checks nothing. Its memory is
 * an array here, as in a firmware. */

#include <errno.h>
#include <malloc.h>
#include <stddef.h>
#include <stdio.h>
#include <string.h>

static _Alignas(16) char memory[1 << 20];
static size_t used;

static void *take_memory(ptrdiff_t count)
{
    if (count < 0 || (size_t)count > sizeof memory - used)
        return (void *)-1;
    used += (size_t)count;
    return memory + used - (size_t)count;
}

#define malloc nano_malloc_
#define free nano_free_
#define realloc nano_realloc_
#define malloc_usable_size nano_malloc_usable_size_
#define _sbrk_r take_memory
#define DEFINE_MALLOC
#define DEFINE_FREE
#define DEFINE_REALLOC
#define DEFINE_MALLOC_USABLE_SIZE
#include <nano-mallocr.c>

#include "by_pointer.h"

void start(void)
{
}

/* There is no check that could stand against a claim. */
void call_claim(object given)
{
    (void)given;
}
