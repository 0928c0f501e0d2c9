/* The functions of lokhazim_queue.h, over those of the proved module (port/core.h). Only arguments and answers are handed on. */
#include "core.h"
#include "lokhazim_queue.h"

void lokhazim_core_queue_new(struct lokhazim_queue *, uint32_t, uint32_t);
struct lokhazim_queue lokhazim_queue_new(uint32_t sender, uint32_t receiver)
{
    struct lokhazim_queue queue;
    lokhazim_core_queue_new(&queue, sender, receiver);
    return queue;
}

uint32_t lokhazim_core_raw_queue_send(const uint8_t *, uint64_t, struct lokhazim_accounts *, struct lokhazim_queue *, const struct lokhazim_handle *);
uint32_t lokhazim_raw_queue_send(
    uint8_t *heap, size_t length, struct lokhazim_accounts *accounts, struct lokhazim_queue *queue, struct lokhazim_handle handle)
{
    return lokhazim_core_raw_queue_send(heap, length, accounts, queue, &handle);
}

void lokhazim_core_raw_queue_receive(struct lokhazim_handle_reply *, struct lokhazim_queue *);
struct lokhazim_handle_reply lokhazim_raw_queue_receive(struct lokhazim_queue *queue)
{
    struct lokhazim_handle_reply reply;
    lokhazim_core_raw_queue_receive(&reply, queue);
    return reply;
}
