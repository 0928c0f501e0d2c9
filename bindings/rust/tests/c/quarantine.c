/*
 * A heap with quarantine from C: released blocks wait for a sweep, a plain heap has none of them, and the
 * number of the kind reaches the library.
 */
#include "check.h"
#include "lokhazim.h"

#include <stdlib.h>

static _Alignas(LOKHAZIM_ALIGNMENT) uint8_t memory[96];
static struct lokhazim_accounts accounts;
static const struct lokhazim_heap heap = { memory, sizeof memory, &accounts };

/* Opens the heap for two quotas and makes three objects that fill it. */
static void begin(uint32_t kind, struct lokhazim_handle objects[3])
{
    ACCEPTED(lokhazim_heap_open(&heap, (struct lokhazim_grants){ { 96, 96 } }, kind, LOKHAZIM_EDITION_1));
    for (int i = 0; i < 3; i++) {
        ACCEPTED(lokhazim_heap_allocate(&heap, 0, 24, &objects[i]));
    }
}

/* The serial of the block at an offset. */
static uint32_t serial_at(size_t at)
{
    struct lokhazim_block_reply block;
    ACCEPTED(lokhazim_heap_list_block(&heap, at, &block));
    CHECK(block.found == 1 && block.size == 32);
    return block.serial;
}

/* The two released blocks stand side by side, and each keeps its own header until the sweep. */
static void released_blocks_wait(void)
{
    struct lokhazim_handle objects[3];
    struct lokhazim_handle given;
    struct lokhazim_block_reply block;
    uint32_t amount = 0;
    begin(LOKHAZIM_QUARANTINE, objects);
    CHECK(accounts.kind == LOKHAZIM_QUARANTINE);
    ACCEPTED(lokhazim_heap_release(&heap, 0, objects[0], &amount));
    CHECK(amount == 32 && accounts.quotas[0].remainder == 32);
    ACCEPTED(lokhazim_heap_release(&heap, 0, objects[1], NULL));
    CHECK(serial_at(0) == LOKHAZIM_QUARANTINED && serial_at(32) == LOKHAZIM_QUARANTINED && serial_at(64) == 3);
    REFUSED(NO_SUCH_OBJECT, lokhazim_heap_can_release(&heap, 0, objects[0]));
    objects[0].serial = LOKHAZIM_QUARANTINED;
    REFUSED(NO_SUCH_OBJECT, lokhazim_heap_claim(&heap, 1, objects[0], NULL));
    REFUSED(NO_SPACE, lokhazim_heap_allocate(&heap, 0, 8, &given));
    ACCEPTED(lokhazim_heap_sweep(&heap, &amount));
    CHECK(amount == 64);
    ACCEPTED(lokhazim_heap_list_block(&heap, 0, &block));
    CHECK(block.found == 1 && block.size == 64 && block.serial == 0);
    ACCEPTED(lokhazim_heap_sweep(&heap, NULL));
    ACCEPTED(lokhazim_heap_allocate(&heap, 0, 56, &given));
    CHECK(given.base == 8 && given.serial == 4);
}

/* In a plain heap the blocks are free at once, and a sweep finds none. */
static void a_plain_heap_has_none(void)
{
    struct lokhazim_handle objects[3];
    uint32_t amount = 9;
    const struct lokhazim_heap odd = { memory, 65, &accounts };
    begin(LOKHAZIM_PLAIN, objects);
    ACCEPTED(lokhazim_heap_release(&heap, 0, objects[0], NULL));
    CHECK(serial_at(0) == 0);
    ACCEPTED(lokhazim_heap_sweep(&heap, &amount));
    CHECK(amount == 0);
    REFUSED(HEAP_LENGTH, lokhazim_heap_sweep(&odd, &amount));
    for (size_t i = 4; i < 8; i++) {
        memory[i] = 255;
    }
    REFUSED(INCONSISTENT, lokhazim_heap_check(&heap));
    accounts.kind = LOKHAZIM_QUARANTINE;
    ACCEPTED(lokhazim_heap_sweep(&heap, &amount));
    CHECK(amount == 32);
}

/* Each number but 0 opens a heap with quarantine. */
static void numbers_of_the_kind(void)
{
    const uint32_t numbers[5] = { 1, 2, 255, 256, UINT32_MAX };
    struct lokhazim_handle objects[3];
    for (int i = 0; i < 5; i++) {
        begin(numbers[i], objects);
        CHECK(accounts.kind == LOKHAZIM_QUARANTINE);
    }
}

/* The last serial that can be given, and none behind it. */
static void serials_end(void)
{
    struct lokhazim_handle given;
    ACCEPTED(lokhazim_heap_open(&heap, (struct lokhazim_grants){ { 96 } }, LOKHAZIM_PLAIN, LOKHAZIM_EDITION_1));
    accounts.last_serial = LOKHAZIM_SERIAL_MAX - 1;
    ACCEPTED(lokhazim_heap_allocate(&heap, 0, 8, &given));
    CHECK(given.serial == LOKHAZIM_SERIAL_MAX && given.serial == 4294967294u);
    REFUSED(SERIALS_EXHAUSTED, lokhazim_heap_allocate(&heap, 0, 8, &given));
    accounts.last_serial = LOKHAZIM_QUARANTINED;
    REFUSED(INCONSISTENT, lokhazim_heap_allocate(&heap, 0, 8, &given));
}

int main(void)
{
    released_blocks_wait();
    a_plain_heap_has_none();
    numbers_of_the_kind();
    serials_end();
    return EXIT_SUCCESS;
}
