/*
 * Every field through the library and back: C sets distinct numbers and reads them again, and the
 * library notices a change of any single one.
 */
#include "check.h"
#include "lokhazim.h"
#include "same.h"

#include <string.h>

static _Alignas(LOKHAZIM_ALIGNMENT) uint8_t memory[LOKHAZIM_HEAP_MAX];
static struct lokhazim_accounts accounts;
static const struct lokhazim_heap heap = { memory, sizeof memory, &accounts };

static struct lokhazim_handle handles[LOKHAZIM_HOLDS];

/* Accounts in which no two fields of four bytes are the same, nor two of one byte near each other; no heap agrees with them. */
static struct lokhazim_accounts distinct(void)
{
    struct lokhazim_accounts it;
    uint32_t n = 0;
    for (int i = 0; i < LOKHAZIM_QUOTAS; i++) {
        it.quotas[i].grant = ++n * 0x9E3779B1u;
        it.quotas[i].remainder = ++n * 0x9E3779B1u;
        it.quotas[i].permissions = (uint8_t)(200 + i);
    }
    it.last_serial = ++n * 0x9E3779B1u;
    for (int i = 0; i < LOKHAZIM_HOLDS; i++) {
        it.holds[i].serial = ++n * 0x9E3779B1u;
        it.holds[i].quota = (uint8_t)(2 * i);
        it.holds[i].count = (uint8_t)(2 * i + 1);
    }
    it.kind = 171;
    it.edition = 92;
    return it;
}

/* Each grant reaches its quota. */
static void grants_come_back(void)
{
    struct lokhazim_grants grants;
    for (uint32_t i = 0; i < LOKHAZIM_QUOTAS; i++) {
        grants.values[i] = 100000 + 1000 * i;
    }
    ACCEPTED(lokhazim_heap_open(&heap, grants, LOKHAZIM_PLAIN, LOKHAZIM_EDITION_1));
    for (int i = 0; i < LOKHAZIM_QUOTAS; i++) {
        CHECK(accounts.quotas[i].grant == grants.values[i]);
        CHECK(accounts.quotas[i].remainder == grants.values[i]);
        CHECK(accounts.quotas[i].permissions == LOKHAZIM_MAY_ALL);
    }
    CHECK(accounts.last_serial == 0 && accounts.kind == LOKHAZIM_PLAIN && accounts.edition == LOKHAZIM_EDITION_1);
    CHECK(accounts.holds[0].count == 0 && accounts.holds[LOKHAZIM_HOLDS - 1].count == 0);
}

/* Each call that hands the accounts back hands back every field of a state that it refuses. */
static void accounts_come_back(void)
{
    const struct lokhazim_accounts before = distinct();
    struct lokhazim_accounts after = before;
    const struct lokhazim_heap refused = { memory, sizeof memory, &after };
    const struct lokhazim_heap short_heap = { memory, 65, &after };
    struct lokhazim_handle handle = { 8, 16, 1 };
    struct lokhazim_handle given = { 1, 2, 3 };
    uint32_t amount = 4;
    REFUSED(INCONSISTENT, lokhazim_heap_allocate(&refused, 0, 8, &given));
    CHECK(same(&before, &after) && given.base == 0 && given.length == 0 && given.serial == 0);
    REFUSED(INCONSISTENT, lokhazim_heap_allocate_array(&refused, 0, 2, 4, &given));
    CHECK(same(&before, &after));
    REFUSED(INCONSISTENT, lokhazim_heap_claim(&refused, 0, handle, &amount));
    CHECK(same(&before, &after) && amount == 0);
    REFUSED(INCONSISTENT, lokhazim_heap_release(&refused, 0, handle, NULL));
    CHECK(same(&before, &after));
    REFUSED(INCONSISTENT, lokhazim_heap_free_all(&refused, 0, NULL));
    CHECK(same(&before, &after));
    REFUSED(INCONSISTENT, lokhazim_heap_clear_permissions(&refused, 0, LOKHAZIM_MAY_ALL, NULL));
    CHECK(same(&before, &after));
    amount = 4;
    REFUSED(INCONSISTENT, lokhazim_heap_sweep(&refused, &amount));
    CHECK(same(&before, &after) && amount == 0);
    REFUSED(INCONSISTENT, lokhazim_heap_reallocate(&refused, 0, handle, 8, &given));
    CHECK(same(&before, &after));
    REFUSED(HEAP_LENGTH, lokhazim_heap_open(&short_heap, (struct lokhazim_grants){ { 1 } }, LOKHAZIM_QUARANTINE, LOKHAZIM_EDITION_1));
    CHECK(same(&(struct lokhazim_accounts){ .last_serial = 0 }, &after));
}

/* The object of record i has a length and a count of its own. */
static uint32_t length_of(uint32_t i)
{
    return 8 + 8 * (i % 8);
}

static uint32_t count_of(uint32_t i)
{
    return 1 + i % 5;
}

/* Fills every record, by calls. */
static void fill(void)
{
    for (uint32_t i = 0; i < LOKHAZIM_HOLDS; i++) {
        const uint32_t quota = i % LOKHAZIM_QUOTAS;
        uint32_t bytes = 0;
        ACCEPTED(lokhazim_heap_allocate(&heap, quota, length_of(i), &handles[i]));
        for (uint32_t n = 1; n < count_of(i); n++) {
            ACCEPTED(lokhazim_heap_claim(&heap, quota, handles[i], &bytes));
            CHECK(bytes == length_of(i));
        }
    }
}

/* What the calls have left in each field is what C reads there. */
static void fields_are_read(void)
{
    uint32_t spent[LOKHAZIM_QUOTAS] = { 0 };
    for (uint32_t i = 0; i < LOKHAZIM_HOLDS; i++) {
        CHECK(accounts.holds[i].serial == i + 1);
        CHECK(accounts.holds[i].quota == i % LOKHAZIM_QUOTAS);
        CHECK(accounts.holds[i].count == count_of(i));
        spent[i % LOKHAZIM_QUOTAS] += length_of(i) + LOKHAZIM_HEADER;
    }
    for (uint32_t i = 0; i < LOKHAZIM_QUOTAS; i++) {
        uint32_t remainder = 0;
        CHECK(accounts.quotas[i].grant == 100000 + 1000 * i);
        CHECK(accounts.quotas[i].remainder == accounts.quotas[i].grant - spent[i]);
        ACCEPTED(lokhazim_heap_remaining(&heap, i, &remainder));
        CHECK(remainder == accounts.quotas[i].remainder);
    }
    CHECK(accounts.last_serial == LOKHAZIM_HOLDS);
}

static enum lokhazim_refusal check(void)
{
    return lokhazim_heap_check(&heap);
}

/* Changes one field, which has to be refused, and changes it back. */
#define NOTICED(field, number)                           \
    do {                                                 \
        const struct lokhazim_accounts kept = accounts;  \
        CHECK(check() == LOKHAZIM_ACCEPTED);             \
        (field) = number;                                \
        CHECK(check() == LOKHAZIM_INCONSISTENT);         \
        accounts = kept;                                 \
    } while (0)

/* The library reads each field of the accounts where C has set it. */
static void fields_are_noticed(void)
{
    for (int i = 0; i < LOKHAZIM_QUOTAS; i++) {
        NOTICED(accounts.quotas[i].grant, accounts.quotas[i].grant + 1);
        NOTICED(accounts.quotas[i].remainder, accounts.quotas[i].remainder + 1);
        NOTICED(accounts.quotas[i].permissions, LOKHAZIM_MAY_ALL + 1);
    }
    NOTICED(accounts.last_serial, LOKHAZIM_HOLDS - 1);
    NOTICED(accounts.last_serial, LOKHAZIM_QUARANTINED);
    NOTICED(accounts.kind, LOKHAZIM_QUARANTINE + 1);
    NOTICED(accounts.edition, LOKHAZIM_EDITION_2 + 1);
    for (uint32_t i = 0; i < LOKHAZIM_HOLDS; i++) {
        NOTICED(accounts.holds[i].serial, LOKHAZIM_HOLDS + 1);
        NOTICED(accounts.holds[i].quota, LOKHAZIM_QUOTAS);
        NOTICED(accounts.holds[i].count, 0);
    }
}

/* The library reads each field of a handle. */
static void handle_is_noticed(struct lokhazim_handle right)
{
    struct lokhazim_handle wrong[3] = { right, right, right };
    uint8_t *object = NULL;
    ACCEPTED(lokhazim_heap_lend(&heap, right, &object));
    CHECK(object == memory + right.base);
    wrong[0].base += 8;
    wrong[1].length += 8;
    wrong[2].serial += 1;
    for (int n = 0; n < 3; n++) {
        REFUSED(NO_SUCH_OBJECT, lokhazim_heap_lend(&heap, wrong[n], &object));
        CHECK(object == NULL);
    }
}

/* C reads each field of the replies about the object of record i, whose block starts at a place. */
static size_t replies_are_read(uint32_t i, size_t at)
{
    struct lokhazim_block_reply block;
    const struct lokhazim_range_reply range = lokhazim_raw_lend(memory, sizeof memory, &accounts, handles[i]);
    CHECK(handles[i].base == at + LOKHAZIM_HEADER && handles[i].length == length_of(i));
    CHECK(handles[i].serial == i + 1);
    CHECK(range.refusal == 0 && range.start == handles[i].base);
    CHECK(range.end == handles[i].base + handles[i].length);
    ACCEPTED(lokhazim_heap_list_block(&heap, at, &block));
    CHECK(block.found == 1 && block.offset == at && block.serial == i + 1);
    CHECK(block.size == length_of(i) + LOKHAZIM_HEADER);
    return at + block.size;
}

static void handles_and_replies(void)
{
    size_t at = 0;
    for (uint32_t i = 0; i < LOKHAZIM_HOLDS; i++) {
        handle_is_noticed(handles[i]);
        at = replies_are_read(i, at);
    }
}

/* The arguments that go by number reach the library in their order. */
static void numbers_in_order(void)
{
    struct lokhazim_handle given;
    struct lokhazim_handle moved;
    uint32_t refund = 0;
    ACCEPTED(lokhazim_heap_open(&heap, (struct lokhazim_grants){ { 0, 0, 0, 500 } }, LOKHAZIM_PLAIN, LOKHAZIM_EDITION_1));
    ACCEPTED(lokhazim_heap_allocate_array(&heap, 3, 5, 12, &given));
    CHECK(given.base == 8 && given.length == 64 && given.serial == 1);
    ACCEPTED(lokhazim_heap_write(&heap, given, 63, 255));
    ACCEPTED(lokhazim_heap_write(&heap, given, 64, 254));
    CHECK(memory[8 + 63] == 255 && memory[8 + 64] != 254);
    ACCEPTED(lokhazim_heap_reallocate(&heap, 3, given, 70, &moved));
    CHECK(moved.base == 80 && moved.length == 72 && moved.serial == 2);
    CHECK(memory[80 + 63] == 255 && memory[8 + 63] == 0);
    REFUSED(NOT_HELD, lokhazim_heap_can_release(&heap, 2, moved));
    ACCEPTED(lokhazim_heap_can_release(&heap, 3, moved));
    ACCEPTED(lokhazim_heap_free_all(&heap, 3, &refund));
    CHECK(refund == 80 && accounts.quotas[3].remainder == 500);
    ACCEPTED(lokhazim_heap_allocate(&heap, 3, 8, &given));
    ACCEPTED(lokhazim_heap_release(&heap, 3, given, &refund));
    CHECK(refund == 16 && accounts.quotas[3].remainder == 500);
}

/* A narrower handle is the numbers of its range, or all zero. */
static void is_narrowed(struct lokhazim_handle handle, uint32_t at, uint32_t bytes, struct lokhazim_handle expected)
{
    const struct lokhazim_handle part = lokhazim_handle_narrowed(handle, at, bytes);
    CHECK(part.base == expected.base && part.length == expected.length && part.serial == expected.serial);
}

static void narrower_handles_are_made(void)
{
    const struct lokhazim_handle whole = { 8, 16, 5 };
    const struct lokhazim_handle last = { UINT32_MAX - 1, 9, 5 };
    const struct lokhazim_handle none = { 0, 0, 0 };
    for (uint32_t at = 0; at < 20; at++) {
        for (uint32_t bytes = 0; bytes < 20; bytes++) {
            const struct lokhazim_handle part = { 8 + at, bytes, 5 };
            is_narrowed(whole, at, bytes, bytes > 0 && at + bytes <= 16 ? part : none);
        }
    }
    is_narrowed(whole, 1, UINT32_MAX, none);
    is_narrowed(whole, UINT32_MAX, 1, none);
    is_narrowed(whole, UINT32_MAX, 2, none);
    is_narrowed(whole, UINT32_MAX, UINT32_MAX, none);
    is_narrowed(last, 1, 8, (struct lokhazim_handle){ UINT32_MAX, 8, 5 });
    is_narrowed(last, 2, 7, none);
    is_narrowed(none, 0, 0, none);
    is_narrowed(none, 0, 1, none);
}

/* Rules 4.8 to 4.10 by every part of an object. */
static void parts_of_an_object(void)
{
    struct lokhazim_handle whole;
    struct lokhazim_handle moved;
    uint8_t *object = NULL;
    uint32_t amount = 0;
    ACCEPTED(lokhazim_heap_open(&heap, (struct lokhazim_grants){ { 500, 500 } }, LOKHAZIM_PLAIN, LOKHAZIM_EDITION_1));
    ACCEPTED(lokhazim_heap_allocate(&heap, 0, 16, &whole));
    for (uint32_t at = 0; at < 16; at++) {
        for (uint32_t bytes = 1; at + bytes <= 16; bytes++) {
            const struct lokhazim_handle part = lokhazim_handle_narrowed(whole, at, bytes);
            ACCEPTED(lokhazim_heap_lend(&heap, part, &object));
            CHECK(object == memory + whole.base + at);
            CHECK(lokhazim_raw_lend(memory, sizeof memory, &accounts, part).end == whole.base + at + bytes);
            ACCEPTED(lokhazim_heap_write(&heap, part, bytes - 1, (uint8_t)(at + 1)));
            CHECK(object[bytes - 1] == at + 1);
            ACCEPTED(lokhazim_heap_write(&heap, part, bytes, 99));
            CHECK(object[bytes] != 99);
            ACCEPTED(lokhazim_heap_claim(&heap, 1, part, &amount));
            CHECK(amount == 16 && accounts.quotas[1].remainder == 500 - 24);
            ACCEPTED(lokhazim_heap_can_release(&heap, 1, part));
            ACCEPTED(lokhazim_heap_release(&heap, 1, part, &amount));
            CHECK(amount == 24 && accounts.quotas[1].remainder == 500);
            REFUSED(NOT_HELD, lokhazim_heap_release(&heap, 1, part, &amount));
            if (bytes < 16) {
                REFUSED(NO_SUCH_OBJECT, lokhazim_heap_reallocate(&heap, 0, part, 8, &moved));
            }
        }
    }
    ACCEPTED(lokhazim_heap_reallocate(&heap, 0, lokhazim_handle_narrowed(whole, 0, 16), 8, &moved));
    REFUSED(NO_SUCH_OBJECT, lokhazim_heap_lend(&heap, lokhazim_handle_narrowed(moved, 0, 9), &object));
}

/* Quota q loses the permissions with the bits of q. Then each call goes by its own bit of its own quota. */
static void permissions_are_read(void)
{
    struct lokhazim_grants grants;
    struct lokhazim_handle object;
    struct lokhazim_handle given;
    for (uint32_t q = 0; q < LOKHAZIM_QUOTAS; q++) {
        grants.values[q] = 500;
    }
    ACCEPTED(lokhazim_heap_open(&heap, grants, LOKHAZIM_PLAIN, LOKHAZIM_EDITION_1));
    ACCEPTED(lokhazim_heap_allocate(&heap, 0, 8, &object));
    for (uint32_t q = 1; q <= LOKHAZIM_MAY_ALL; q++) {
        ACCEPTED(lokhazim_heap_claim(&heap, q, object, NULL));
    }
    for (uint32_t q = 0; q <= LOKHAZIM_MAY_ALL; q++) {
        uint32_t left = 99;
        ACCEPTED(lokhazim_heap_clear_permissions(&heap, q, q | 0xFFFFFFF8u, &left));
        CHECK(left == LOKHAZIM_MAY_ALL - q && accounts.quotas[q].permissions == left);
        ACCEPTED(lokhazim_heap_clear_permissions(&heap, q, 0, &left));
        CHECK(left == LOKHAZIM_MAY_ALL - q);
    }
    REFUSED(QUOTA_NUMBER, lokhazim_heap_clear_permissions(&heap, LOKHAZIM_QUOTAS, 0, NULL));
    for (uint32_t q = 0; q <= LOKHAZIM_MAY_ALL; q++) {
        const uint32_t left = accounts.quotas[q].permissions;
        const int makes = left & LOKHAZIM_MAY_ALLOCATE ? LOKHAZIM_ACCEPTED : LOKHAZIM_NOT_PERMITTED;
        const int claims = left & LOKHAZIM_MAY_CLAIM ? LOKHAZIM_ACCEPTED : LOKHAZIM_NOT_PERMITTED;
        const int frees = left & LOKHAZIM_MAY_FREE_ALL ? LOKHAZIM_ACCEPTED : LOKHAZIM_NOT_PERMITTED;
        CHECK((int)lokhazim_heap_allocate(&heap, q, 8, &given) == makes);
        CHECK((int)lokhazim_heap_allocate_array(&heap, q, 2, 4, &given) == makes);
        CHECK((int)lokhazim_heap_claim(&heap, q, object, NULL) == claims);
        CHECK((int)lokhazim_heap_reallocate(&heap, q, object, 8, &given) == makes);
        CHECK((int)lokhazim_heap_free_all(&heap, q, NULL) == frees);
    }
}

int main(void)
{
    grants_come_back();
    accounts_come_back();
    grants_come_back();
    fill();
    fields_are_read();
    fields_are_noticed();
    handles_and_replies();
    numbers_in_order();
    narrower_handles_are_made();
    parts_of_an_object();
    permissions_are_read();
    return EXIT_SUCCESS;
}
