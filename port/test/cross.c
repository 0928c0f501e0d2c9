/*
 * The same calls on every processor: random ones on random heaps, with damaged heaps and accounts among them, and a crowded heap in which all hold records are
 * used. Each answer, each byte of the heap and each number of the accounts goes into two sums after each call. IMAGES=1 saves and reads images and hands
 * packets on between the calls; RESTORE=1 also restores, which needs a stack with room for second accounts and leaves the same.
 */
#include "cross.h"

/* The heap's most bytes; how many handles are remembered; after how many calls a heap is opened anew; which opening is a crowded one, and how many objects
 * all quotas hold then. */
enum { HEAP = 4096, HANDLES = 64, EPOCH = 500, CROWDED = 8, SHARED = 16, ANSWERS = 5 };

enum kind { ALLOCATE, ALLOCATE_ARRAY, CLAIM, RELEASE, FREE_ALL, CLEAR, REALLOCATE, SWEEP, LEND, WRITE, REMAINING, CAN_RELEASE, LIST_BLOCK, CHECK, KINDS };

struct call {
    enum kind kind;
    size_t length;
    uint32_t quota, bytes, size;
    struct lokhazim_handle handle;
};

struct answer {
    uint32_t refusal;
    uint32_t numbers[ANSWERS];
};

struct state {
    _Alignas(LOKHAZIM_ALIGNMENT) uint8_t bytes[HEAP];
    struct lokhazim_accounts accounts;
};

static struct state state, saved;
static size_t length;
static struct lokhazim_handle handles[HANDLES];
static struct outcome outcome;
static uint32_t seed, epochs;

/* A random number. C leaves the order open in which the parts of an expression are worked out, so no expression has two that may change places. */
static uint32_t any(uint32_t below)
{
    seed ^= seed << 13;
    seed ^= seed >> 17;
    seed ^= seed << 5;
    return seed % below;
}

static void mix(uint32_t number)
{
    outcome.sums[0] = (outcome.sums[0] ^ number) * 16777619u;
    outcome.sums[1] = ((outcome.sums[1] << 5 | outcome.sums[1] >> 27) ^ number) * 2654435761u;
}

/* Every number of the accounts. */
static void mix_accounts(const struct lokhazim_accounts *accounts)
{
    for (int i = 0; i < LOKHAZIM_QUOTAS; i++) {
        mix(accounts->quotas[i].grant);
        mix(accounts->quotas[i].remainder);
        mix(accounts->quotas[i].permissions);
    }
    for (int i = 0; i < LOKHAZIM_HOLDS; i++) {
        mix(accounts->holds[i].serial);
        mix((uint32_t)accounts->holds[i].quota << 8 | accounts->holds[i].count);
    }
    mix(accounts->last_serial);
    mix((uint32_t)accounts->kind << 8 | accounts->edition);
}

/* Every byte of the heap and every number of the accounts. */
static void mix_state(void)
{
    for (size_t i = 0; i < length; i += 4) {
        mix(state.bytes[i] | (uint32_t)state.bytes[i + 1] << 8 | (uint32_t)state.bytes[i + 2] << 16 | (uint32_t)state.bytes[i + 3] << 24);
    }
    mix_accounts(&state.accounts);
}

static struct answer of_handle(uint32_t refusal, struct lokhazim_handle handle)
{
    const struct answer answer = { refusal, { handle.base, handle.length, handle.serial } };
    return answer;
}

static struct lokhazim_handle handle_of(struct answer answer)
{
    const struct lokhazim_handle handle = { answer.numbers[0], answer.numbers[1], answer.numbers[2] };
    return handle;
}

static struct answer of_amount(uint32_t refusal, uint32_t amount)
{
    const struct answer answer = { refusal, { amount } };
    return answer;
}

static struct answer of_block(uint32_t refusal, const struct lokhazim_block_reply *block)
{
    const struct answer answer = { refusal, { block->found, (uint32_t)block->offset, (uint32_t)block->size, block->serial } };
    return answer;
}

/* The call, and what it answers. */
static struct answer perform(const struct call *call)
{
    const struct lokhazim_heap heap = { state.bytes, call->length, &state.accounts };
    uint8_t *object = NULL;
    struct lokhazim_handle handle = { 0, 0, 0 };
    struct lokhazim_block_reply block;
    uint32_t amount = 0, refusal;
    switch (call->kind) {
    case ALLOCATE:
        refusal = lokhazim_heap_allocate(&heap, call->quota, call->bytes, &handle);
        return of_handle(refusal, handle);
    case ALLOCATE_ARRAY:
        refusal = lokhazim_heap_allocate_array(&heap, call->quota, call->bytes, call->size, &handle);
        return of_handle(refusal, handle);
    case CLAIM:
        refusal = lokhazim_heap_claim(&heap, call->quota, call->handle, &amount);
        return of_amount(refusal, amount);
    case RELEASE:
        refusal = lokhazim_heap_release(&heap, call->quota, call->handle, &amount);
        return of_amount(refusal, amount);
    case FREE_ALL:
        refusal = lokhazim_heap_free_all(&heap, call->quota, &amount);
        return of_amount(refusal, amount);
    case CLEAR:
        refusal = lokhazim_heap_clear_permissions(&heap, call->quota, call->size, &amount);
        return of_amount(refusal, amount);
    case REALLOCATE:
        refusal = lokhazim_heap_reallocate(&heap, call->quota, call->handle, call->bytes, &handle);
        return of_handle(refusal, handle);
    case SWEEP:
        refusal = lokhazim_heap_sweep(&heap, &amount);
        return of_amount(refusal, amount);
    case LEND:
        refusal = lokhazim_heap_lend(&heap, call->handle, &object);
        return of_amount(refusal, object ? (uint32_t)(object - state.bytes) : 0);
    case WRITE:
        return of_amount(lokhazim_heap_write(&heap, call->handle, call->size, (uint8_t)call->bytes), 0);
    case REMAINING:
        refusal = lokhazim_heap_remaining(&heap, call->quota, &amount);
        return of_amount(refusal, amount);
    case CAN_RELEASE:
        return of_amount(lokhazim_heap_can_release(&heap, call->quota, call->handle), 0);
    case LIST_BLOCK:
        refusal = lokhazim_heap_list_block(&heap, call->handle.base - LOKHAZIM_HEADER, &block);
        return of_block(refusal, &block);
    default:
        return of_amount(lokhazim_heap_check(&heap), 0);
    }
}

#if IMAGES
#include "images.h"
#endif

/* Makes a call, and counts it and what it gave. */
static struct answer make(const struct call *call)
{
    const struct answer answer = perform(call);
    outcome.calls++;
    outcome.tally[answer.refusal < REFUSALS ? answer.refusal : 0]++;
    mix(call->kind);
    mix(answer.refusal);
    for (int i = 0; i < ANSWERS; i++) {
        mix(answer.numbers[i]);
    }
    mix_state();
    if (answer.refusal == LOKHAZIM_ACCEPTED && (call->kind == ALLOCATE || call->kind == ALLOCATE_ARRAY || call->kind == REALLOCATE)) {
        handles[any(HANDLES)] = handle_of(answer);
    }
    return answer;
}

/* Opens a heap of a random length, or of all bytes, with random grants, or with plenty. */
static void open_heap(int plenty)
{
    struct lokhazim_grants grants;
    const enum lokhazim_kind kind = any(2) ? LOKHAZIM_QUARANTINE : LOKHAZIM_PLAIN;
    const enum lokhazim_edition edition = any(2) ? LOKHAZIM_EDITION_2 : LOKHAZIM_EDITION_1;
    length = plenty ? HEAP : 64 + 8 * (size_t)any((HEAP - 64) / 8 + 1);
    for (int i = 0; i < LOKHAZIM_QUOTAS; i++) {
        grants.values[i] = plenty ? 60000 : any(1500);
    }
    for (size_t i = 0; i < HEAP; i++) {
        state.bytes[i] = (uint8_t)any(256);
    }
    for (int i = 0; i < HANDLES; i++) {
        handles[i].serial = 0;
    }
    const struct lokhazim_heap heap = { state.bytes, length, &state.accounts };
    outcome.calls++;
    outcome.tally[lokhazim_heap_open(&heap, grants, kind, edition)]++;
    mix_state();
}

/* All hold records get used, and one of them 255 times. What is asked for then is refused. */
static void crowd(void)
{
    struct call call = { ALLOCATE, length, 0, 8, 0, { 0, 0, 0 } };
    for (int object = 0; object < SHARED; object++) {
        call.kind = ALLOCATE;
        call.quota = 0;
        call.handle = handle_of(make(&call));
        call.kind = CLAIM;
        for (call.quota = 1; call.quota < LOKHAZIM_HOLDS / SHARED; call.quota++) {
            make(&call);
        }
    }
    for (int again = 0; again < 256; again++) {
        call.quota = 5;
        make(&call);
    }
    call.kind = ALLOCATE;
    make(&call);
}

/* Harms the state, or the length that the call lends; some harm is none, and some leaves a state that is right but rare. */
static void harm(struct call *call)
{
    static const size_t lengths[] = { 0, 56, HEAP + 4, LOKHAZIM_HEAP_MAX + 8 };
    struct lokhazim_hold *hold = &state.accounts.holds[any(LOKHAZIM_HOLDS)];
    const uint8_t bit = (uint8_t)(1u << any(8));
    const uint32_t header = 8 * any((uint32_t)length / 8);
    switch (any(8)) {
    case 0:
        call->length = lengths[any(4)];
        break;
    case 1:
        state.accounts.last_serial = LOKHAZIM_SERIAL_MAX;
        break;
    case 2:
        hold->count = 255;
        call->quota = hold->quota;
        break;
    case 3:
        state.accounts.kind = (uint8_t)any(3);
        state.accounts.edition = (uint8_t)any(3);
        break;
    case 4: case 5:
        ((uint8_t *)&state.accounts)[any(sizeof state.accounts)] ^= bit;
        break;
    default:
        state.bytes[header + any(8)] ^= bit;
        break;
    }
}

/* A random call: mostly of live objects and quotas that exist. */
static struct call choose(void)
{
    /* free-all, clear and sweep are rare, so that heaps fill */
    static const uint8_t kinds[] = { ALLOCATE, ALLOCATE, ALLOCATE, ALLOCATE_ARRAY, CLAIM, CLAIM, RELEASE, RELEASE, REALLOCATE, LEND, WRITE, REMAINING,
                                     CAN_RELEASE, LIST_BLOCK, CHECK, KINDS };
    static const uint8_t rare[] = { FREE_ALL, CLEAR, SWEEP, CLAIM };
    struct call call;
    const uint8_t kind = kinds[any(sizeof kinds)];
    call.kind = (enum kind)(kind == KINDS ? rare[any(sizeof rare)] : kind);
    call.length = length;
    call.quota = any(16) ? any(6) : any(LOKHAZIM_QUOTAS + 4);
    call.bytes = any(8) ? any(120) : any(40000);
    call.size = any(8);
    call.handle = handles[any(HANDLES)];
    if (any(8) == 0) {
        const uint32_t at = any(16), bytes = 1 + any(16);
        call.handle = lokhazim_handle_narrowed(call.handle, at, bytes);
    }
    if (any(16) == 0) {
        call.handle.length += 8;
    }
    return call;
}

struct outcome cross(uint32_t calls)
{
    const struct outcome none = { { 2166136261u, 1 }, 0, { 0 }, 0 };
    uint32_t next = 0;
    outcome = none;
    seed = 2463534242u;
    epochs = 0;
    while (outcome.calls < calls) {
        if (outcome.calls >= next) {
            const int plenty = epochs++ % CROWDED == 0;
            open_heap(plenty);
            if (plenty) {
                crowd();
            }
            next = outcome.calls + EPOCH;
        }
#if IMAGES
        if (any(32) == 0) {
            image_step();
        }
        if (any(8) == 0) {
            queue_step();
        }
#endif
        struct call call = choose();
        if (any(8) == 0) {
            saved = state;
            harm(&call);
            make(&call);
            state = saved;
        } else {
            make(&call);
        }
    }
    return outcome;
}
