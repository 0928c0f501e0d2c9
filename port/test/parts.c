/* Two parts over the wrapper port/board/parts.h: a part can't act for another. */
#include "parts.h"

#include <stdio.h>

struct parts parts;
static uint32_t running, inside;

uint32_t kernel_part(void)
{
    return running;
}

void kernel_enter(void)
{
    inside++;
}

void kernel_leave(void)
{
    inside--;
}

int main(void)
{
    const struct lokhazim_grants grants = { { 100, 100 } };
    struct lokhazim_handle handle, none;
    uint8_t *object;
    unsigned told[9], n = 0;
    told[n++] = lokhazim_heap_open(&parts_heap, grants, LOKHAZIM_PLAIN, LOKHAZIM_EDITION_1);
    running = 0;
    told[n++] = part_allocate(40, &handle);
    told[n++] = part_allocate(60, &none);
    running = 1;
    told[n++] = part_lend(handle, &object);
    told[n++] = part_release(handle);
    told[n++] = part_claim(handle);
    told[n++] = part_lend(handle, &object);
    told[n++] = part_release(handle);
    running = 2;
    told[n++] = part_allocate(8, &none);
    for (unsigned i = 0; i < n; i++) {
        printf("%u ", told[i]);
    }
    printf("%u\n", (unsigned)inside);
    return 0;
}
