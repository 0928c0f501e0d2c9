/* What the compiler has to warn of: exchanged kind and edition, and answers that are dropped. It is not run. */
#include "lokhazim.h"
#include "lokhazim_queue.h"

void misuse(const struct lokhazim_heap *heap, struct lokhazim_queue *queue);

void misuse(const struct lokhazim_heap *heap, struct lokhazim_queue *queue)
{
    const struct lokhazim_grants grants = { { 1000 } };
    struct lokhazim_handle handle;
    enum lokhazim_refusal refusal = lokhazim_heap_open(heap, grants, LOKHAZIM_EDITION_2, LOKHAZIM_PLAIN);
    lokhazim_heap_allocate(heap, 0, 40, &handle);
    if (refusal == LOKHAZIM_ACCEPTED) {
        lokhazim_queue_send(heap, queue, handle);
    }
}
