/*
 * Queues from C: sixteen packets go in and come out in order, each refusal leaves heap, accounts and queue alone, and
 * every place of a queue goes through the library.
 */
#include "check.h"
#include "lokhazim_queue.h"

#include <string.h>

enum { COUNT = LOKHAZIM_QUEUE_PLACES + 1 };

static _Alignas(LOKHAZIM_ALIGNMENT) uint8_t memory[512];
static struct lokhazim_accounts accounts;
static const struct lokhazim_heap heap = { memory, sizeof memory, &accounts };
static struct lokhazim_handle packets[COUNT];

static enum lokhazim_refusal put(struct lokhazim_queue *queue, struct lokhazim_handle packet)
{
    return lokhazim_queue_send(&heap, queue, packet);
}

static int same(struct lokhazim_handle a, struct lokhazim_handle b)
{
    return a.base == b.base && a.length == b.length && a.serial == b.serial;
}

/* Quota 0 makes the packets. */
static void make(void)
{
    const struct lokhazim_grants grants = { { 1000, 1000 } };
    CHECK(lokhazim_heap_open(&heap, grants, LOKHAZIM_PLAIN, LOKHAZIM_EDITION_1) == LOKHAZIM_ACCEPTED);
    for (size_t i = 0; i < COUNT; i++) {
        CHECK(lokhazim_heap_allocate(&heap, 0, 8, &packets[i]) == LOKHAZIM_ACCEPTED);
    }
}

/* A new queue is all zero but for its quotas. */
static struct lokhazim_queue fresh(void)
{
    static const struct lokhazim_handle none;
    const struct lokhazim_queue queue = lokhazim_queue_new(0, 1);
    CHECK(queue.sender == 0 && queue.receiver == 1 && queue.count == 0);
    for (size_t i = 0; i < LOKHAZIM_QUEUE_PLACES; i++) {
        CHECK(same(queue.handles[i], none));
    }
    return queue;
}

/* Sixteen fit, in order; the next does not, and then it does. */
static void in_order(void)
{
    struct lokhazim_queue queue = fresh();
    struct lokhazim_handle packet;
    CHECK(lokhazim_queue_receive(&queue, &packet) == LOKHAZIM_QUEUE_EMPTY && packet.serial == 0);
    for (size_t i = 0; i < LOKHAZIM_QUEUE_PLACES; i++) {
        CHECK(put(&queue, packets[i]) == LOKHAZIM_ACCEPTED && queue.count == i + 1);
        CHECK(same(queue.handles[i], packets[i]));
    }
    CHECK(put(&queue, packets[COUNT - 1]) == LOKHAZIM_QUEUE_FULL && queue.count == LOKHAZIM_QUEUE_PLACES);
    CHECK(lokhazim_queue_receive(&queue, &packet) == LOKHAZIM_ACCEPTED && same(packet, packets[0]));
    CHECK(put(&queue, packets[COUNT - 1]) == LOKHAZIM_ACCEPTED);
    for (size_t i = 1; i < COUNT; i++) {
        CHECK(lokhazim_queue_receive(&queue, &packet) == LOKHAZIM_ACCEPTED && same(packet, packets[i]));
    }
    CHECK(queue.count == 0);
}

/* A queue with another number in every word, and this count. */
static struct lokhazim_queue filled(uint32_t count)
{
    struct lokhazim_queue queue = { .sender = 0x01020304, .receiver = 0x05060708, .count = count, .handles = { { 0, 0, 0 } } };
    for (uint32_t i = 0; i < LOKHAZIM_QUEUE_PLACES; i++) {
        queue.handles[i] = (struct lokhazim_handle){ 3 * i + 1, 3 * i + 2, 3 * i + 3 };
    }
    return queue;
}

/* A send is refused with this number, and leaves heap, accounts and queue as they are. */
static void not_put(struct lokhazim_queue queue, enum lokhazim_refusal refusal)
{
    const struct lokhazim_queue before = queue;
    const struct lokhazim_accounts owed = accounts;
    uint8_t bytes[sizeof memory];
    memcpy(bytes, memory, sizeof memory);
    CHECK(put(&queue, packets[0]) == refusal);
    CHECK(memcmp(&before, &queue, sizeof queue) == 0);
    CHECK(memcmp(&owed, &accounts, sizeof accounts) == 0);
    CHECK(memcmp(bytes, memory, sizeof memory) == 0);
}

/* Damaged queues, full ones, quotas that there are not, and a sender that holds nothing: all are refused, and nothing changes. */
static void refuse(void)
{
    struct lokhazim_queue queue = filled(0);
    not_put(filled(LOKHAZIM_QUEUE_PLACES + 1), LOKHAZIM_QUEUE_DAMAGED);
    not_put(filled(UINT32_MAX), LOKHAZIM_QUEUE_DAMAGED);
    not_put(filled(LOKHAZIM_QUEUE_PLACES), LOKHAZIM_QUEUE_FULL);
    not_put(queue, LOKHAZIM_QUOTA_NUMBER);
    queue.receiver = 1;
    not_put(queue, LOKHAZIM_QUOTA_NUMBER);
    queue.sender = 0;
    not_put(queue, LOKHAZIM_NOT_HELD);
    CHECK(lokhazim_heap_check(&heap) == LOKHAZIM_ACCEPTED);
}

/* Every word of a queue stays where a receive is refused, and is at its place after one that is not. */
static void every_field(void)
{
    static const struct lokhazim_handle none;
    static const uint32_t refused[][2] = {
        { 0, LOKHAZIM_QUEUE_EMPTY }, { LOKHAZIM_QUEUE_PLACES + 1, LOKHAZIM_QUEUE_DAMAGED }, { UINT32_MAX, LOKHAZIM_QUEUE_DAMAGED }
    };
    for (size_t i = 0; i < sizeof refused / sizeof refused[0]; i++) {
        const struct lokhazim_queue before = filled(refused[i][0]);
        struct lokhazim_queue queue = before;
        struct lokhazim_handle given = { 1, 2, 3 };
        CHECK(lokhazim_queue_receive(&queue, &given) == refused[i][1]);
        CHECK(same(given, none) && memcmp(&queue, &before, sizeof before) == 0);
    }
    for (uint32_t count = 1; count <= LOKHAZIM_QUEUE_PLACES; count++) {
        const struct lokhazim_queue before = filled(count);
        struct lokhazim_queue queue = before;
        struct lokhazim_handle given = { 1, 2, 3 };
        ACCEPTED(lokhazim_queue_receive(&queue, &given));
        CHECK(same(given, before.handles[0]));
        CHECK(queue.sender == 0x01020304 && queue.receiver == 0x05060708 && queue.count == count - 1);
        CHECK(memcmp(queue.handles, before.handles + 1, 15 * sizeof before.handles[0]) == 0);
        CHECK(same(queue.handles[15], none));
    }
}

int main(void)
{
    make();
    in_order();
    refuse();
    every_field();
    return EXIT_SUCCESS;
}
