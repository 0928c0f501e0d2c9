/*
 * Lokhazim: packet queues between two quotas of a heap. A queue keeps up to 16 handles on their way
 * from a sending quota to a receiving one, and gives them in the order in which they were sent.
 *
 *     struct lokhazim_queue queue = lokhazim_queue_new(RADIO, LOGGER);
 *     if (lokhazim_queue_send(&heap, &queue, packet)) { ... not sent ... }
 *     ...
 *     struct lokhazim_handle oldest;
 *     if (lokhazim_queue_receive(&queue, &oldest)) { ... nothing is on its way ... }
 *
 * A send claims the packet for the receiver, which pays for it, and then releases it for the
 * sender. If one of the two would be refused, nothing has changed. So from the send on the receiver
 * holds the packet, before it has received the handle; when it is done with it, it releases it. A
 * packet that its receiver has released, and that nobody else holds, is gone: its handle comes out
 * all the same, and lend refuses it. Sender and receiver may be one quota.
 *
 * The duties of lokhazim.h hold here too. A queue is like the accounts: one trusted place keeps it,
 * and it lies outside of the heap and of the accounts.
 */
#ifndef LOKHAZIM_QUEUE_H
#define LOKHAZIM_QUEUE_H

#include "lokhazim.h"

/* How many handles a queue has room for. */
#define LOKHAZIM_QUEUE_PLACES 16

/* A queue: the numbers of its two quotas, and the handles on their way, the first `count`, the
 * oldest first. */
struct lokhazim_queue {
    uint32_t sender;
    uint32_t receiver;
    uint32_t count;
    struct lokhazim_handle handles[LOKHAZIM_QUEUE_PLACES];
};

LOKHAZIM_LAYOUT(lokhazim_queue, 204, handles, 12);

/* The library's own functions. */
LOKHAZIM_API uint32_t lokhazim_raw_queue_send(uint8_t *heap, size_t length,
    struct lokhazim_accounts *accounts, struct lokhazim_queue *queue,
    struct lokhazim_handle handle);
LOKHAZIM_API struct lokhazim_handle_reply lokhazim_raw_queue_receive(struct lokhazim_queue *queue);

/* Gives a queue with nothing on its way. Whether there are such quotas is told by the first
 * send. */
LOKHAZIM_API LOKHAZIM_NODISCARD struct lokhazim_queue lokhazim_queue_new(uint32_t sender,
    uint32_t receiver);

/* Sends a handle, whole or narrowed: the receiver claims its object, the sender releases it, and
 * the handle goes behind the others. Where it is refused, heap, accounts and queue stay. Refusals
 * 100, 53, 51, then claim's for the receiver (1, 2, 3, 12, 5, 7, 8, 9), then release's for the
 * sender (3, 6), all of them on heap and accounts as they come in. */
LOKHAZIM_CALL lokhazim_queue_send(const struct lokhazim_heap *heap, struct lokhazim_queue *queue,
    struct lokhazim_handle handle)
{
    return queue && lokhazim_own_usable(heap)
        ? (enum lokhazim_refusal)lokhazim_raw_queue_send(
              heap->bytes, heap->length, heap->accounts, queue, handle)
        : LOKHAZIM_BAD_POINTER;
}

/* Gives the oldest handle in *handle, as it was sent. Where it is refused, the handle is 0 and the
 * queue stays. Refusals 100, 53, 52. */
LOKHAZIM_CALL lokhazim_queue_receive(struct lokhazim_queue *queue, struct lokhazim_handle *handle)
{
    struct lokhazim_handle_reply reply = { LOKHAZIM_BAD_POINTER, { 0, 0, 0 } };
    if (queue && handle) {
        reply = lokhazim_raw_queue_receive(queue);
    }
    return lokhazim_own_handle(reply, handle);
}

#endif
