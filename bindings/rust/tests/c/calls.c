/*
 * Random calls by the library's own functions and by those of the header, each on its own copy of a heap with its
 * accounts. Refusals, answers, fields and heap bytes have to be the same. The header's accounts have any bytes as
 * padding, the others zeros: a refused call changes no byte of the accounts, an accepted one no byte of padding, and
 * an opening sets padding to zero.
 */
#include "check.h"
#include "lokhazim.h"
#include "same.h"

#include <string.h>

/* How many calls are made, and how many behind one opening. */
#define CALLS 60000
#define CALLS_OF_AN_OPENING 300

static size_t length;
static _Alignas(LOKHAZIM_ALIGNMENT) uint8_t raw_memory[LOKHAZIM_HEAP_MAX + 8];
static _Alignas(LOKHAZIM_ALIGNMENT) uint8_t memory[LOKHAZIM_HEAP_MAX + 8];
static struct lokhazim_accounts raw;
static struct lokhazim_accounts place;
static struct lokhazim_heap heap = { memory, 0, &place };
static uint8_t is_padding[sizeof place];

static struct lokhazim_handle handles[LOKHAZIM_HOLDS];
static uint32_t handle_count;
static uint32_t refusals[13];

/* What the library's own functions take first. */
#define RAW raw_memory, length, &raw

/* The numbers of a call; a call takes those that it needs. */
struct numbers {
    uint32_t quota;
    uint32_t bytes;
    uint32_t count;
    struct lokhazim_handle handle;
};

/* Makes a call by both, checks that the answers are the same, and gives the refusal. */
typedef uint32_t call(struct numbers it);

/* ---- Numbers ---- */

static uint32_t random_below(uint32_t bound)
{
    static uint64_t state = 88172645463325252u;
    state ^= state << 13;
    state ^= state >> 7;
    state ^= state << 17;
    return (uint32_t)((state >> 16) % bound);
}

static struct lokhazim_handle any_handle(void)
{
    struct lokhazim_handle it = { 8, 8, 1 };
    if (handle_count != 0) {
        it = handles[random_below(handle_count)];
    }
    switch (random_below(16)) {
    case 0:
        return lokhazim_handle_narrowed(it, random_below(8), 1 + random_below(8));
    case 1:
        it.base += 8;
        return it;
    case 2:
        it.length = random_below(100);
        return it;
    default:
        return it;
    }
}

static struct numbers any_numbers(void)
{
    const uint32_t quota = random_below(12) ? random_below(6) : random_below(300);
    const uint32_t bytes = random_below(9) ? random_below(200) : random_below(2) * random_below(70000);
    const uint32_t count = random_below(9) ? random_below(10) : random_below(UINT32_MAX);
    return (struct numbers){ quota, bytes, count, any_handle() };
}

/* ---- Calls ---- */

static uint32_t handle_made(struct lokhazim_handle_reply reply, uint32_t refusal, struct lokhazim_handle given)
{
    CHECK(reply.handle.base == given.base && reply.handle.length == given.length);
    CHECK(reply.handle.serial == given.serial && reply.refusal == refusal);
    if (refusal == LOKHAZIM_ACCEPTED && handle_count < LOKHAZIM_HOLDS) {
        handles[handle_count++] = given;
    }
    return refusal;
}

static uint32_t amount_told(struct lokhazim_amount_reply reply, uint32_t refusal, uint32_t amount)
{
    CHECK(reply.amount == amount && reply.refusal == refusal);
    return refusal;
}

static uint32_t allocate(struct numbers it)
{
    struct lokhazim_handle given;
    const uint32_t refusal = lokhazim_heap_allocate(&heap, it.quota, it.bytes, &given);
    return handle_made(lokhazim_raw_allocate(RAW, it.quota, it.bytes), refusal, given);
}

static uint32_t allocate_array(struct numbers it)
{
    struct lokhazim_handle given;
    const uint32_t refusal = lokhazim_heap_allocate_array(&heap, it.quota, it.bytes, it.count, &given);
    return handle_made(lokhazim_raw_allocate_array(RAW, it.quota, it.bytes, it.count), refusal, given);
}

static uint32_t reallocate(struct numbers it)
{
    struct lokhazim_handle given;
    const uint32_t refusal = lokhazim_heap_reallocate(&heap, it.quota, it.handle, it.bytes, &given);
    return handle_made(lokhazim_raw_reallocate(RAW, it.quota, it.handle, it.bytes), refusal, given);
}

static uint32_t claim(struct numbers it)
{
    uint32_t amount;
    const uint32_t refusal = lokhazim_heap_claim(&heap, it.quota, it.handle, &amount);
    return amount_told(lokhazim_raw_claim(RAW, it.quota, it.handle), refusal, amount);
}

static uint32_t release(struct numbers it)
{
    uint32_t amount;
    const uint32_t can = lokhazim_heap_can_release(&heap, it.quota, it.handle);
    CHECK(can == lokhazim_raw_can_release(RAW, it.quota, it.handle));
    const uint32_t refusal = lokhazim_heap_release(&heap, it.quota, it.handle, &amount);
    CHECK(refusal == can);
    return amount_told(lokhazim_raw_release(RAW, it.quota, it.handle), refusal, amount);
}

static uint32_t free_all(struct numbers it)
{
    uint32_t amount;
    const uint32_t refusal = lokhazim_heap_free_all(&heap, it.quota, &amount);
    return amount_told(lokhazim_raw_free_all(RAW, it.quota), refusal, amount);
}

static uint32_t clear_permissions(struct numbers it)
{
    uint32_t amount;
    const uint32_t refusal = lokhazim_heap_clear_permissions(&heap, it.quota, it.count, &amount);
    return amount_told(lokhazim_raw_clear_permissions(RAW, it.quota, it.count), refusal, amount);
}

static uint32_t sweep(struct numbers it)
{
    uint32_t amount;
    (void)it;
    const uint32_t refusal = lokhazim_heap_sweep(&heap, &amount);
    return amount_told(lokhazim_raw_sweep(RAW), refusal, amount);
}

static uint32_t lend(struct numbers it)
{
    uint8_t *object;
    const struct lokhazim_range_reply reply = lokhazim_raw_lend(RAW, it.handle);
    const uint32_t refusal = lokhazim_heap_lend(&heap, it.handle, &object);
    CHECK(refusal == reply.refusal);
    CHECK(object == (refusal == LOKHAZIM_ACCEPTED ? memory + reply.start : NULL));
    return refusal;
}

static uint32_t write(struct numbers it)
{
    const uint8_t byte = (uint8_t)random_below(256);
    const uint32_t refusal = lokhazim_heap_write(&heap, it.handle, it.bytes, byte);
    CHECK(refusal == lokhazim_raw_write(RAW, it.handle, it.bytes, byte));
    return refusal;
}

static uint32_t remaining(struct numbers it)
{
    uint32_t amount;
    const struct lokhazim_amount_reply reply = lokhazim_raw_remaining(RAW, it.quota);
    const uint32_t refusal = lokhazim_heap_remaining(&heap, it.quota, &amount);
    CHECK(refusal == reply.refusal && amount == reply.amount);
    return refusal;
}

static uint32_t list_block(struct numbers it)
{
    struct lokhazim_block_reply block;
    const size_t at = random_below(3) ? 0 : it.handle.base - LOKHAZIM_HEADER;
    const struct lokhazim_block_reply reply = lokhazim_raw_list_block(RAW, at);
    const uint32_t refusal = lokhazim_heap_list_block(&heap, at, &block);
    CHECK(refusal == reply.refusal && block.found == reply.found && block.serial == reply.serial);
    CHECK(block.offset == reply.offset && block.size == reply.size);
    return refusal;
}

static uint32_t check(struct numbers it)
{
    (void)it;
    const uint32_t refusal = lokhazim_heap_check(&heap);
    CHECK(refusal == lokhazim_raw_check(RAW));
    return refusal;
}

static call *const calls[] = {
    allocate, allocate, allocate, allocate_array, reallocate, claim, claim, release,
    release, lend, write, remaining, list_block, check, free_all, clear_permissions, sweep,
};

/* ---- Comparison ---- */

static void mark_padding(void)
{
    for (size_t i = 0; i < LOKHAZIM_QUOTAS; i++) {
        const size_t behind = offsetof(struct lokhazim_accounts, quotas) + (i + 1) * sizeof place.quotas[0];
        memset(is_padding + behind - 3, 1, 3);
    }
    for (size_t i = 0; i < LOKHAZIM_HOLDS; i++) {
        const size_t behind = offsetof(struct lokhazim_accounts, holds) + (i + 1) * sizeof place.holds[0];
        memset(is_padding + behind - 2, 1, 2);
    }
    memset(is_padding + sizeof is_padding - 2, 1, 2);
}

/* Puts any bytes where the accounts in place have padding. */
static void set_padding(void)
{
    for (size_t i = 0; i < sizeof place; i++) {
        if (is_padding[i]) {
            ((uint8_t *)&place)[i] = (uint8_t)random_below(256);
        }
    }
}

/* Both copies have the same fields and the same heap bytes. */
static void copies_agree(void)
{
    CHECK(same(&raw, &place));
    CHECK(memcmp(raw_memory, memory, sizeof memory) == 0);
}

/* Makes a call on both copies. */
static uint32_t make(call *one, struct numbers it)
{
    static uint8_t before[sizeof place];
    const uint8_t *const after = (const uint8_t *)&place;
    memcpy(before, &place, sizeof place);
    const uint32_t refusal = one(it);
    for (size_t i = 0; i < sizeof place; i++) {
        CHECK(before[i] == after[i] || (refusal == LOKHAZIM_ACCEPTED && !is_padding[i]));
    }
    copies_agree();
    refusals[refusal]++;
    return refusal;
}

/* Opens both copies, over any bytes. */
static void open(size_t heap_length, struct lokhazim_grants grants, uint32_t kind, uint32_t edition)
{
    length = heap.length = heap_length;
    handle_count = 0;
    for (size_t i = 0; i < sizeof memory; i++) {
        raw_memory[i] = memory[i] = (uint8_t)random_below(256);
    }
    memset(&place, (int)random_below(256), sizeof place);
    const uint32_t refusal = lokhazim_raw_open(RAW, grants, kind, edition);
    CHECK(lokhazim_heap_open(&heap, grants, kind, edition) == refusal);
    for (size_t i = 0; i < sizeof place; i++) {
        CHECK(!is_padding[i] || ((const uint8_t *)&place)[i] == 0);
    }
    copies_agree();
    refusals[refusal]++;
    set_padding();
}

/* Opens a heap of any length, an allowed one most often. */
static void open_any(void)
{
    static const size_t lengths[] = { 64, 256, 1024, 4096, 8192, LOKHAZIM_HEAP_MAX, 56, 4100, LOKHAZIM_HEAP_MAX + 8 };
    const size_t any = lengths[random_below(sizeof lengths / sizeof lengths[0])];
    struct lokhazim_grants grants;
    for (int i = 0; i < LOKHAZIM_QUOTAS; i++) {
        grants.values[i] = random_below((uint32_t)any + 200);
    }
    open(any, grants, random_below(3), random_below(3));
}

/* Damages a byte of both heaps, has the check tell, and most often mends it. */
static void damage(void)
{
    const size_t at = random_below((uint32_t)length);
    const uint8_t kept = memory[at];
    raw_memory[at] = memory[at] = (uint8_t)random_below(256);
    make(check, any_numbers());
    if (random_below(4)) {
        raw_memory[at] = memory[at] = kept;
    }
}

static void random_calls(void)
{
    for (int n = 0; n < CALLS; n++) {
        if (n % CALLS_OF_AN_OPENING == 0) {
            open_any();
        }
        if (random_below(200) == 0) {
            damage();
        }
        make(calls[random_below(sizeof calls / sizeof calls[0])], any_numbers());
    }
}

/* What random calls do not come to: a product above 32 bits, full counts, records that are all used, and the last serial. */
static void limits(void)
{
    struct numbers it = { 0, 8, 0x20000001, { 0, 0, 0 } };
    open(LOKHAZIM_HEAP_MAX, (struct lokhazim_grants){ { 60000, 60000 } }, LOKHAZIM_PLAIN, LOKHAZIM_EDITION_2);
    CHECK(make(allocate_array, it) == LOKHAZIM_OBJECT_LENGTH);
    for (int n = 0; n < LOKHAZIM_HOLDS; n++) {
        CHECK(make(allocate, it) == LOKHAZIM_ACCEPTED);
    }
    CHECK(make(allocate, it) == LOKHAZIM_HOLDS_EXHAUSTED);
    it.handle = handles[LOKHAZIM_HOLDS - 1];
    for (int n = 1; n < 255; n++) {
        CHECK(make(claim, it) == LOKHAZIM_ACCEPTED);
    }
    CHECK(make(claim, it) == LOKHAZIM_COUNT_LIMIT);
    it.quota = 1;
    CHECK(make(claim, it) == LOKHAZIM_HOLDS_EXHAUSTED);
    it.quota = 0;
    CHECK(make(free_all, it) == LOKHAZIM_ACCEPTED);
    raw.last_serial = place.last_serial = LOKHAZIM_SERIAL_MAX - 1;
    CHECK(make(allocate, it) == LOKHAZIM_ACCEPTED);
    CHECK(make(allocate, it) == LOKHAZIM_SERIALS_EXHAUSTED);
}

int main(void)
{
    mark_padding();
    random_calls();
    limits();
    for (int n = 0; n < 13; n++) {
        CHECK(refusals[n] > 0);
    }
    return EXIT_SUCCESS;
}
