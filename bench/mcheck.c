/* A peer: glibc's malloc under mcheck_pedantic, which checks its whole heap at every call. It is run with libc_malloc_debug.so.0 preloaded. */

#include <mcheck.h>
#include <stdlib.h>

#include "by_pointer.h"

void start(void)
{
    if (mcheck_pedantic(NULL) != 0)
        fail("mcheck_pedantic has no effect. Run this with LD_PRELOAD=libc_malloc_debug.so.0");
}

/* The check of the whole heap stands against a claim. */
void call_claim(object given)
{
    (void)given;
    mcheck_check_all();
}
