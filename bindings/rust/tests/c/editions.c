/*
 * Both editions of the rounding table from C: lengths, bases and addresses at the bounds of each row, heaps that only one
 * edition takes, and the number of the edition reaches the library.
 */
#include "check.h"
#include "lokhazim.h"

static _Alignas(LOKHAZIM_ALIGNMENT) uint8_t memory[LOKHAZIM_HEAP_MAX];
static struct lokhazim_accounts accounts;
static const struct lokhazim_heap heap = { memory, sizeof memory, &accounts };

/* Opens the heap of an edition, with more than the longest object costs. */
static void begin(uint32_t edition)
{
    ACCEPTED(lokhazim_heap_open(&heap, (struct lokhazim_grants){ { 40000 } }, LOKHAZIM_PLAIN, edition));
}

/* A request with the object that it gets in a fresh heap: its length, and its unit, which is its base, too. */
struct row {
    uint32_t request;
    uint32_t length;
    uint32_t unit;
};

static const struct row first[] = {
    { 1, 8, 8 },           { 4089, 4096, 8 },      { 8184, 8184, 8 },      { 8185, 8192, 16 },
    { 8193, 8208, 16 },    { 16368, 16368, 16 },   { 16369, 16384, 32 },   { 32736, 32736, 32 },
};

static const struct row second[] = {
    { 1, 8, 8 },           { 4088, 4088, 8 },      { 4089, 4096, 16 },     { 8176, 8176, 16 },
    { 8177, 8192, 32 },    { 16352, 16352, 32 },   { 16353, 16384, 64 },   { 32704, 32704, 64 },
};

static void rows(uint32_t edition, const struct row *table, size_t count)
{
    for (size_t i = 0; i < count; i++) {
        struct lokhazim_handle given;
        uint8_t *object;
        begin(edition);
        ACCEPTED(lokhazim_heap_allocate(&heap, 0, table[i].request, &given));
        CHECK(given.base == table[i].unit && given.length == table[i].length && given.serial == 1);
        ACCEPTED(lokhazim_heap_lend(&heap, given, &object));
        CHECK((uintptr_t)object % table[i].unit == 0);
    }
}

/* The first and the last request whose object fits no heap. */
static void too_long(uint32_t edition, uint32_t from)
{
    struct lokhazim_handle given;
    begin(edition);
    REFUSED(NO_SPACE, lokhazim_heap_allocate(&heap, 0, from, &given));
    REFUSED(NO_SPACE, lokhazim_heap_allocate(&heap, 0, LOKHAZIM_REQUEST_MAX, &given));
    REFUSED(OBJECT_LENGTH, lokhazim_heap_allocate(&heap, 0, LOKHAZIM_REQUEST_MAX + 1, &given));
}

/* Edition 1's object of 4,096 bytes at base 8 is no object of edition 2; what edition 2 makes, edition 1 takes. */
static void a_heap_has_its_own_edition(void)
{
    struct lokhazim_handle given;
    begin(LOKHAZIM_EDITION_1);
    ACCEPTED(lokhazim_heap_allocate(&heap, 0, 4089, &given));
    CHECK(given.base == 8);
    accounts.edition = LOKHAZIM_EDITION_2;
    REFUSED(INCONSISTENT, lokhazim_heap_check(&heap));
    begin(LOKHAZIM_EDITION_2);
    ACCEPTED(lokhazim_heap_allocate(&heap, 0, 4089, &given));
    accounts.edition = LOKHAZIM_EDITION_1;
    ACCEPTED(lokhazim_heap_check(&heap));
    accounts.edition = LOKHAZIM_EDITION_2 + 1;
    REFUSED(INCONSISTENT, lokhazim_heap_check(&heap));
}

/* Each number but 0 opens a heap of edition 2, whatever its kind. */
static void numbers_of_the_edition(void)
{
    const uint32_t numbers[5] = { 1, 2, 255, 256, UINT32_MAX };
    const struct lokhazim_grants grants = { { 9 } };
    const struct lokhazim_heap odd = { memory, 65, &accounts };
    for (int i = 0; i < 5; i++) {
        begin(numbers[i]);
        CHECK(accounts.edition == LOKHAZIM_EDITION_2 && accounts.kind == LOKHAZIM_PLAIN);
        ACCEPTED(lokhazim_heap_open(&heap, grants, numbers[i], LOKHAZIM_EDITION_1));
        CHECK(accounts.edition == LOKHAZIM_EDITION_1 && accounts.kind == LOKHAZIM_QUARANTINE);
        REFUSED(HEAP_LENGTH, lokhazim_heap_open(&odd, grants, numbers[i], numbers[i]));
        CHECK(accounts.edition == 0 && accounts.kind == 0);
    }
}

int main(void)
{
    rows(LOKHAZIM_EDITION_1, first, sizeof first / sizeof first[0]);
    rows(LOKHAZIM_EDITION_2, second, sizeof second / sizeof second[0]);
    too_long(LOKHAZIM_EDITION_1, 32737);
    too_long(LOKHAZIM_EDITION_2, 32705);
    a_heap_has_its_own_edition();
    numbers_of_the_edition();
    return EXIT_SUCCESS;
}
