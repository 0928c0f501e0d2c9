/* The functions of lokhazim_statistics.h, over those of the proved module (port/core.h). Only arguments and answers are handed on. */
#include "core.h"
#include "lokhazim_statistics.h"

struct core_count {
    _Alignas(8) uint64_t blocks;
    _Alignas(8) uint64_t bytes;
};

struct core_statistics {
    _Alignas(8) uint32_t refusal;
    uint32_t last_serial;
    _Alignas(8) uint64_t records;
    struct core_count free;
    struct core_count live;
    struct core_count quarantined;
    _Alignas(8) uint64_t largest_free;
    _Alignas(8) uint64_t fragmented;
    _Alignas(8) uint64_t largest_8;
    _Alignas(8) uint64_t largest_16;
    _Alignas(8) uint64_t largest_32;
    _Alignas(8) uint64_t largest_64;
};

struct core_quota {
    _Alignas(8) uint32_t refusal;
    uint32_t grant;
    uint32_t remaining;
    _Alignas(8) uint64_t objects;
    _Alignas(8) uint64_t shared;
};

LOKHAZIM_ASSERT(sizeof(struct core_statistics) == 112 && offsetof(struct core_statistics, largest_free) == 64, "statistics are not as the module has them");
LOKHAZIM_ASSERT(sizeof(struct core_quota) == 32 && offsetof(struct core_quota, objects) == 16, "statistics are not as the module has them");

static struct lokhazim_block_count count_of(const struct core_count *core)
{
    const struct lokhazim_block_count count = { (size_t)core->blocks, (size_t)core->bytes };
    return count;
}

void lokhazim_core_raw_statistics(struct core_statistics *, const uint8_t *, uint64_t, const struct lokhazim_accounts *);
struct lokhazim_statistics lokhazim_raw_statistics(const uint8_t *heap, size_t length, const struct lokhazim_accounts *accounts)
{
    struct core_statistics core;
    lokhazim_core_raw_statistics(&core, heap, length, accounts);
    const struct lokhazim_statistics reply = {
        core.refusal, core.last_serial, (size_t)core.records, count_of(&core.free), count_of(&core.live), count_of(&core.quarantined),
        (size_t)core.largest_free, (size_t)core.fragmented, (size_t)core.largest_8, (size_t)core.largest_16, (size_t)core.largest_32,
        (size_t)core.largest_64
    };
    return reply;
}

void lokhazim_core_raw_quota_statistics(struct core_quota *, const uint8_t *, uint64_t, const struct lokhazim_accounts *, uint32_t);
struct lokhazim_quota_statistics lokhazim_raw_quota_statistics(
    const uint8_t *heap, size_t length, const struct lokhazim_accounts *accounts, uint32_t quota)
{
    struct core_quota core;
    lokhazim_core_raw_quota_statistics(&core, heap, length, accounts, quota);
    const struct lokhazim_quota_statistics reply = { core.refusal, core.grant, core.remaining, (size_t)core.objects, (size_t)core.shared };
    return reply;
}
