/* The statistics of a heap from C: a heap with a claim and a release, and what is refused. */
#include "check.h"
#include "lokhazim_statistics.h"

static _Alignas(LOKHAZIM_ALIGNMENT) uint8_t memory[256];
static struct lokhazim_accounts accounts;
static const struct lokhazim_heap heap = { memory, sizeof memory, &accounts };

int main(void)
{
    struct lokhazim_grants grants = { { 200, 100 } };
    struct lokhazim_handle first, second;
    struct lokhazim_statistics now;
    struct lokhazim_quota_statistics own;
    const struct lokhazim_heap too_short = { memory, 56, &accounts };
    uint32_t refund;
    CHECK(!lokhazim_heap_open(&heap, grants, LOKHAZIM_PLAIN, LOKHAZIM_EDITION_1));
    CHECK(!lokhazim_heap_allocate(&heap, 0, 40, &first));
    CHECK(!lokhazim_heap_allocate(&heap, 0, 16, &second));
    CHECK(!lokhazim_heap_claim(&heap, 1, second, NULL));
    CHECK(!lokhazim_heap_release(&heap, 0, first, &refund));

    ACCEPTED(lokhazim_heap_statistics(&heap, &now));
    CHECK(now.refusal == LOKHAZIM_ACCEPTED && now.last_serial == 2 && now.records == 2);
    CHECK(now.free.blocks == 2 && now.free.bytes == 232);
    CHECK(now.live.blocks == 1 && now.live.bytes == 24);
    CHECK(now.quarantined.blocks == 0 && now.quarantined.bytes == 0);
    CHECK(now.largest_free == 184 && now.fragmented == 48);
    CHECK(now.largest_8 == 176 && now.largest_16 == 0 && now.largest_32 == 0 && now.largest_64 == 0);
    CHECK(lokhazim_largest_request(&now) == 176);
    CHECK(lokhazim_heap_allocate(&heap, 0, 177, &first) != LOKHAZIM_ACCEPTED);

    ACCEPTED(lokhazim_heap_quota_statistics(&heap, 0, &own));
    CHECK(own.refusal == LOKHAZIM_ACCEPTED && own.grant == 200 && own.remaining == 176);
    CHECK(own.objects == 1 && own.shared == 1);
    REFUSED(QUOTA_NUMBER, lokhazim_heap_quota_statistics(&heap, LOKHAZIM_QUOTAS, &own));
    CHECK(own.refusal == LOKHAZIM_QUOTA_NUMBER && own.grant == 0);

    memory[0]++;
    REFUSED(INCONSISTENT, lokhazim_heap_statistics(&heap, &now));
    CHECK(now.refusal == LOKHAZIM_INCONSISTENT && now.free.bytes == 0 && now.records == 0);
    REFUSED(HEAP_LENGTH, lokhazim_heap_statistics(&too_short, &now));
    return 0;
}
