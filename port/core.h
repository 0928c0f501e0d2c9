/*
 * The calls as the proved module has them (port/retarget.awk): every struct by pointer, an answer that is a struct through the first one, and a lent slice as its
 * address and its length. Numbers that are size_t in lokhazim.h, lengths too, have 64 bits here on every processor.
 */
#ifndef LOKHAZIM_PORT_CORE_H
#define LOKHAZIM_PORT_CORE_H

#include "lokhazim.h"

struct core_range {
    _Alignas(8) uint32_t refusal;
    _Alignas(8) uint64_t start;
    _Alignas(8) uint64_t end;
};

struct core_block {
    _Alignas(8) uint32_t refusal;
    uint32_t found;
    _Alignas(8) uint64_t offset;
    _Alignas(8) uint64_t size;
    uint32_t serial;
};

/* A reply of a refusal and a length: of an image, of a report, of a store. */
struct core_written {
    _Alignas(8) uint32_t refusal;
    _Alignas(8) uint64_t length;
};

LOKHAZIM_ASSERT(sizeof(struct core_range) == 24 && offsetof(struct core_range, start) == 8 && offsetof(struct core_range, end) == 16,
                "a range is not as the module has it");
LOKHAZIM_ASSERT(sizeof(struct core_block) == 32 && offsetof(struct core_block, offset) == 8 && offsetof(struct core_block, size) == 16 &&
                    offsetof(struct core_block, serial) == 24,
                "a block is not as the module has it");

LOKHAZIM_ASSERT(sizeof(struct core_written) == 16 && offsetof(struct core_written, length) == 8, "a length is not as the module has it");

static inline struct lokhazim_range_reply range_of(const struct core_range *core)
{
    const struct lokhazim_range_reply reply = { core->refusal, (size_t)core->start, (size_t)core->end };
    return reply;
}

static inline struct lokhazim_block_reply block_of(const struct core_block *core)
{
    const struct lokhazim_block_reply reply = { core->refusal, core->found, (size_t)core->offset, (size_t)core->size, core->serial };
    return reply;
}

#endif
