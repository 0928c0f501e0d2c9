/*
 * A radio gateway: the radio hands the packets that it hears to a logger.
 *
 * Both share a heap and don't trust each other. The radio has room for three packets
 * at a time. It sends each to the logger through a queue: from then on the logger
 * holds the packet and pays for it, and the radio's quota is free for the next. When the
 * logger has no quota left the send is refused, and nothing has changed: the radio
 * still has its packet. One packet the logger drops before it has taken the handle. The
 * queue gives the handle all the same, in its order, and its bytes are gone.
 *
 * After 'make lib':
 *     cc -std=c11 -Iinclude examples/gateway.c build/lib/liblokhazim.a -o build/gateway && build/gateway
 * It prints what examples/gateway.out has.
 */
#include "lokhazim_queue.h"

#include <inttypes.h>
#include <stdio.h>
#include <stdlib.h>
#include <string.h>

/* The parts, each by the number of its quota. */
enum part { RADIO = 0, LOGGER = 1 };

/* The heap: its bytes, and outside of them its accounts and the queue. */
static _Alignas(LOKHAZIM_ALIGNMENT) uint8_t memory[256];
static struct lokhazim_accounts accounts;
static const struct lokhazim_heap heap = { memory, sizeof memory, &accounts };
static struct lokhazim_queue queue;

/* Stops the program where a call does not end as the story has it. */
static void expect(enum lokhazim_refusal refusal, enum lokhazim_refusal expected)
{
    if (refusal != expected) {
        fprintf(stderr, "FAILED: refusal %d, but this story has %d here.\n", (int)refusal, (int)expected);
        exit(EXIT_FAILURE);
    }
}

/* What remains of a part's quota. */
static uint32_t remaining(enum part part)
{
    uint32_t remainder;
    expect(lokhazim_heap_remaining(&heap, part, &remainder), LOKHAZIM_ACCEPTED);
    return remainder;
}

/* The bytes of a handle. */
static char *bytes_of(struct lokhazim_handle handle)
{
    uint8_t *object;
    expect(lokhazim_heap_lend(&heap, handle, &object), LOKHAZIM_ACCEPTED);
    return (char *)object;
}

/* Drops the logger's hold on a packet. */
static void drop(struct lokhazim_handle packet)
{
    expect(lokhazim_heap_release(&heap, LOGGER, packet, NULL), LOKHAZIM_ACCEPTED);
}

/* The radio hears something and puts it into a packet of 24 bytes, which costs 32. */
static struct lokhazim_handle hear(const char *words)
{
    struct lokhazim_handle packet;
    expect(lokhazim_heap_allocate(&heap, RADIO, 24, &packet), LOKHAZIM_ACCEPTED);
    memcpy(bytes_of(packet), words, strlen(words) + 1);
    return packet;
}

/* The radio sends a packet. */
static void hand_on(struct lokhazim_handle packet, enum lokhazim_refusal expected)
{
    const char *words = bytes_of(packet);
    const enum lokhazim_refusal refusal = lokhazim_queue_send(&heap, &queue, packet);
    expect(refusal, expected);
    if (refusal) {
        printf("The radio can't send \"%s\": refusal %d.", words, (int)refusal);
    } else {
        printf("The radio sends \"%s\".", words);
    }
    printf(" %" PRIu32 " remain to it, %" PRIu32 " to the logger.\n", remaining(RADIO), remaining(LOGGER));
}

/* The logger takes the oldest packet, writes it down and drops it; or finds that it is gone. */
static void write_down(void)
{
    struct lokhazim_handle packet;
    uint8_t *object;
    expect(lokhazim_queue_receive(&queue, &packet), LOKHAZIM_ACCEPTED);
    const enum lokhazim_refusal refusal = lokhazim_heap_lend(&heap, packet, &object);
    if (refusal) {
        expect(refusal, LOKHAZIM_NO_SUCH_OBJECT);
        printf("The logger takes a packet that it had dropped: refusal %d.\n", (int)refusal);
        return;
    }
    printf("The logger writes down \"%s\".\n", (const char *)object);
    drop(packet);
}

int main(void)
{
    const struct lokhazim_grants grants = { { 96, 100 } };
    struct lokhazim_handle none;
    expect(lokhazim_heap_open(&heap, grants, LOKHAZIM_PLAIN, LOKHAZIM_EDITION_1), LOKHAZIM_ACCEPTED);
    queue = lokhazim_queue_new(RADIO, LOGGER);
    printf("The heap is open: 96 for the radio, 100 for the logger. A packet costs 32.\n");

    hand_on(hear("door 3 opens"), LOKHAZIM_ACCEPTED);
    const struct lokhazim_handle noise = hear("zzzz");
    hand_on(noise, LOKHAZIM_ACCEPTED);
    hand_on(hear("door 3 closes"), LOKHAZIM_ACCEPTED);
    const struct lokhazim_handle late = hear("tank is full");
    hand_on(late, LOKHAZIM_QUOTA_EXCEEDED);

    drop(noise);
    printf("The logger drops \"zzzz\" unread, and %" PRIu32 " remain to it.\n", remaining(LOGGER));
    hand_on(late, LOKHAZIM_ACCEPTED);

    for (int packets = 0; packets < 4; packets++) {
        write_down();
    }
    expect(lokhazim_queue_receive(&queue, &none), LOKHAZIM_QUEUE_EMPTY);
    printf("Nothing is on its way: refusal %d. %" PRIu32 " remain to the radio, %" PRIu32 " to the logger.\n",
           (int)LOKHAZIM_QUEUE_EMPTY, remaining(RADIO), remaining(LOGGER));
    expect(lokhazim_heap_check(&heap), LOKHAZIM_ACCEPTED);
    return EXIT_SUCCESS;
}
