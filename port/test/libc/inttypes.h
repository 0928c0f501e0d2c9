/* As much of <inttypes.h> as examples/valve.c needs on a bare board: there uint32_t is unsigned long. */
#ifndef BARE_INTTYPES_H
#define BARE_INTTYPES_H
#include <stdint.h>
#define PRIu32 "lu"
#endif
