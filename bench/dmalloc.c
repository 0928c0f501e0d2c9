/* A peer: dmalloc, set to check its whole heap at every call. */

#include <stdlib.h>

#define DMALLOC_DISABLE
#include <dmalloc.h>

#include "by_pointer.h"

void start(void)
{
    dmalloc_debug_setup("check-heap,inter=1");
}

/* The check of the whole heap stands against a claim. */
void call_claim(object given)
{
    (void)given;
    if (dmalloc_verify(NULL) != DMALLOC_VERIFY_NOERROR)
        fail("dmalloc finds its heap damaged");
}
