/*
 * Lokhazim: the statistics of a heap and of a quota. How much of a heap is free, live and in
 * quarantine, how long a request could be now, how much of the free bytes lies outside the largest
 * free block, and what a quota has.
 *
 *     struct lokhazim_statistics now;
 *     if (lokhazim_heap_statistics(&heap, &now) == LOKHAZIM_ACCEPTED && now.largest_8 < 64) {
 *         ... sweep, or release something ...
 *     }
 *
 * Both functions check heap and accounts as every call does, and change nothing. Beside the check
 * they take one pass over the hold records and one walk over the blocks. The duties of lokhazim.h
 * hold here too.
 */
#ifndef LOKHAZIM_STATISTICS_H
#define LOKHAZIM_STATISTICS_H

#include "lokhazim.h"

/* Some blocks: how many, and their bytes. Each block's header is counted, 8 bytes. */
struct lokhazim_block_count {
    size_t blocks;
    size_t bytes;
};

/* The statistics of a heap; all 0 but the refusal where it is refused. */
struct lokhazim_statistics {
    uint32_t refusal;
    /* The serial of the last object that was made. */
    uint32_t last_serial;
    /* The hold records that are used, of LOKHAZIM_HOLDS. */
    size_t records;
    /* Free blocks, blocks of objects, and blocks in quarantine. Their bytes come to the heap's
     * length. */
    struct lokhazim_block_count free;
    struct lokhazim_block_count live;
    struct lokhazim_block_count quarantined;
    /* The bytes of the largest free block, header included, and those of all other free blocks. */
    size_t largest_free;
    size_t fragmented;
    /* The longest request in each unit that is not refused for space now; 0 where there is none. A
     * request belongs to the unit of its rounded length. In edition 1 the last one is always 0. */
    size_t largest_8;
    size_t largest_16;
    size_t largest_32;
    size_t largest_64;
};

/* The statistics of a quota; all 0 but the refusal where it is refused. */
struct lokhazim_quota_statistics {
    uint32_t refusal;
    /* What it was granted, and what remains of that. */
    uint32_t grant;
    uint32_t remaining;
    /* The objects that it holds, and those of them that another quota holds too. */
    size_t objects;
    size_t shared;
};

LOKHAZIM_LAYOUT(lokhazim_block_count, 2 * sizeof(size_t), bytes, sizeof(size_t));
LOKHAZIM_LAYOUT(
    lokhazim_statistics, 8 + 13 * sizeof(size_t), largest_64, 8 + 12 * sizeof(size_t));
LOKHAZIM_LAYOUT(lokhazim_quota_statistics, 8 + 3 * sizeof(size_t), shared, 8 + 2 * sizeof(size_t));

/* The library's own functions. */
LOKHAZIM_API struct lokhazim_statistics lokhazim_raw_statistics(const uint8_t *heap, size_t length,
    const struct lokhazim_accounts *accounts);
LOKHAZIM_API struct lokhazim_quota_statistics lokhazim_raw_quota_statistics(const uint8_t *heap,
    size_t length, const struct lokhazim_accounts *accounts, uint32_t quota);

/* Gives the statistics of a heap in *statistics. Refusals 100, 1, 2. */
LOKHAZIM_CALL lokhazim_heap_statistics(const struct lokhazim_heap *heap,
    struct lokhazim_statistics *statistics)
{
    const struct lokhazim_block_count none = { 0, 0 };
    struct lokhazim_statistics reply = {
        LOKHAZIM_BAD_POINTER, 0, 0, none, none, none, 0, 0, 0, 0, 0, 0
    };
    if (statistics && lokhazim_own_usable(heap)) {
        reply = lokhazim_raw_statistics(heap->bytes, heap->length, heap->accounts);
    }
    if (statistics) {
        *statistics = reply;
    }
    return (enum lokhazim_refusal)reply.refusal;
}

/* Gives the statistics of a quota in *statistics. Refusals 100, 1, 2, 3. */
LOKHAZIM_CALL lokhazim_heap_quota_statistics(const struct lokhazim_heap *heap, uint32_t quota,
    struct lokhazim_quota_statistics *statistics)
{
    struct lokhazim_quota_statistics reply = { LOKHAZIM_BAD_POINTER, 0, 0, 0, 0 };
    if (statistics && lokhazim_own_usable(heap)) {
        reply = lokhazim_raw_quota_statistics(heap->bytes, heap->length, heap->accounts, quota);
    }
    if (statistics) {
        *statistics = reply;
    }
    return (enum lokhazim_refusal)reply.refusal;
}

/* The longest request that is not refused for space now, in any unit. */
LOKHAZIM_NODISCARD static inline size_t lokhazim_largest_request(
    const struct lokhazim_statistics *statistics)
{
    return statistics->largest_64 ? statistics->largest_64
         : statistics->largest_32 ? statistics->largest_32
         : statistics->largest_16 ? statistics->largest_16
                                  : statistics->largest_8;
}

#endif
