/* The calls of a peer that has malloc, free and realloc and no holds; the peer includes this once they are declared, and has start and
 * call_claim besides. */

#ifndef BY_POINTER_H
#define BY_POINTER_H

#include "peer.h"

object call_allocate(unsigned length)
{
    return (object)malloc(length);
}

void call_release(object given)
{
    free((void *)given);
}

object call_reallocate(object given, unsigned length)
{
    return (object)realloc((void *)given, length);
}

void drop_claim(object given)
{
    (void)given;
}

volatile unsigned char *bytes_of(object given)
{
    return (volatile unsigned char *)given;
}

#endif
