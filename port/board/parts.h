/*
 * A wrapper for parts that don't trust each other: it keeps heap and accounts, and fills in the quota of the part that runs. The parts can't reach `parts`
 * (memory protection) and call these functions through the kernel, such as by svc or ecall. docs/PORTING.md says more. Other calls are wrapped alike.
 */
#ifndef PARTS_H
#define PARTS_H

#include "lokhazim.h"

#ifndef PARTS_HEAP
#define PARTS_HEAP 4096
#endif

/* One object for all files, in memory that only the kernel may touch. */
struct parts {
    _Alignas(LOKHAZIM_ALIGNMENT) uint8_t bytes[PARTS_HEAP];
    struct lokhazim_accounts accounts;
};
extern struct parts parts;
static const struct lokhazim_heap parts_heap = { parts.bytes, sizeof parts.bytes, &parts.accounts };

/* From the kernel: the quota of the part that runs, by the scheduler's own record; and what keeps everyone else from a call while one is made. */
uint32_t kernel_part(void);
void kernel_enter(void);
void kernel_leave(void);

/* Makes an object that the part holds. */
static inline enum lokhazim_refusal part_allocate(uint32_t bytes, struct lokhazim_handle *handle)
{
    kernel_enter();
    const enum lokhazim_refusal refusal = lokhazim_heap_allocate(&parts_heap, kernel_part(), bytes, handle);
    kernel_leave();
    return refusal;
}

/* Lets the part hold an object whose handle it was given. */
static inline enum lokhazim_refusal part_claim(struct lokhazim_handle handle)
{
    kernel_enter();
    const enum lokhazim_refusal refusal = lokhazim_heap_claim(&parts_heap, kernel_part(), handle, NULL);
    kernel_leave();
    return refusal;
}

/* Drops one hold of the part. */
static inline enum lokhazim_refusal part_release(struct lokhazim_handle handle)
{
    kernel_enter();
    const enum lokhazim_refusal refusal = lokhazim_heap_release(&parts_heap, kernel_part(), handle, NULL);
    kernel_leave();
    return refusal;
}

/* Lends the bytes of a handle to the part, if it holds the object: the library lends to anyone who has a handle. */
static inline enum lokhazim_refusal part_lend(struct lokhazim_handle handle, uint8_t **object)
{
    *object = NULL;
    kernel_enter();
    enum lokhazim_refusal refusal = lokhazim_heap_can_release(&parts_heap, kernel_part(), handle);
    if (refusal == LOKHAZIM_ACCEPTED) {
        refusal = lokhazim_heap_lend(&parts_heap, handle, object);
    }
    kernel_leave();
    return refusal;
}

#endif
