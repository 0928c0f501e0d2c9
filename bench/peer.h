/* What bench/peer.c needs of a peer: bench/mcheck.c, bench/dmalloc.c or bench/nano.c.
 * The names call_... are those that the instruction counts look for. */

#ifndef PEER_H
#define PEER_H

#include <stdint.h>

/* A pointer or the numbers of a handle, as the peer has it. */
typedef uint64_t object;

/* Readies the peer's heap. */
void start(void);

object call_allocate(unsigned length);
void call_release(object given);
object call_reallocate(object given, unsigned length);

/* One more hold on an object, which drop_claim takes back. In a peer without holds a check of the whole heap alone, or nothing. */
void call_claim(object given);
void drop_claim(object given);

/* The bytes of an object. */
volatile unsigned char *bytes_of(object given);

/* Stops with a sentence that says what is wrong. */
_Noreturn void fail(const char *why);

#endif
