/*
 * One call on a heap of 4,096 bytes with 100 live objects of 24 bytes, each held once, so that scripts/port-figures can count its instructions. The state is
 * written as it would lie there after the calls that make it. CALL says which call; 0 is none.
 */
#include "lokhazim.h"

enum { BYTES = 4096, OBJECTS = 100, OBJECT = 24, BLOCK = OBJECT + LOKHAZIM_HEADER, GRANT = 4000, PARTS = 4 };

static _Alignas(LOKHAZIM_ALIGNMENT) uint8_t bytes[BYTES];
static struct lokhazim_accounts accounts;
static const struct lokhazim_heap heap = { bytes, BYTES, &accounts };

/* A header: the block's size and that of the block before it, in units of 8, and the serial. */
static void put_header(uint32_t at, uint32_t size, uint32_t before, uint32_t serial)
{
    bytes[at] = (uint8_t)(size / 8);
    bytes[at + 1] = (uint8_t)(size / 8 >> 8);
    bytes[at + 2] = (uint8_t)(before / 8);
    bytes[at + 4] = (uint8_t)serial;
}

static void prepare(void)
{
    for (uint32_t i = 0; i < OBJECTS; i++) {
        put_header(i * BLOCK, BLOCK, i == 0 ? 0 : BLOCK, i + 1);
        accounts.holds[i].serial = i + 1;
        accounts.holds[i].quota = i % PARTS;
        accounts.holds[i].count = 1;
    }
    put_header(OBJECTS * BLOCK, BYTES - OBJECTS * BLOCK, BLOCK, 0);
    accounts.last_serial = OBJECTS;
    for (uint32_t i = 0; i < LOKHAZIM_QUOTAS; i++) {
        accounts.quotas[i].grant = GRANT;
        accounts.quotas[i].remainder = i < PARTS ? GRANT - OBJECTS / PARTS * BLOCK : GRANT;
        accounts.quotas[i].permissions = LOKHAZIM_MAY_ALL;
    }
}

int main(void)
{
    struct lokhazim_handle handle = { 50 * BLOCK + LOKHAZIM_HEADER, OBJECT, 51 };
    enum lokhazim_refusal refusal = LOKHAZIM_ACCEPTED;
    prepare();
    /* the state counts as used, whether a call is made or not */
    __asm__ volatile("" : : "r"(bytes), "r"(&accounts) : "memory");
#if CALL == 1
    refusal = lokhazim_heap_check(&heap);
#elif CALL == 2
    refusal = lokhazim_heap_allocate(&heap, 0, OBJECT, &handle);
#elif CALL == 3
    refusal = lokhazim_heap_release(&heap, 50 % PARTS, handle, NULL);
#endif
    return refusal == LOKHAZIM_ACCEPTED && handle.serial != 0 ? 0 : 1;
}
