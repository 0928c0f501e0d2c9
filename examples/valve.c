/*
 * The parts of a valve controller share one heap and don't trust each other.
 *
 * The logger has nearly spent its quota and asks for more than is left. Once, in
 * such a controller, the charge was subtracted first and looked at afterwards:
 * what was left wrapped to billions, the logger took the whole heap, and the
 * valve could not close. Here the request is refused and the valve closes. The
 * radio is handed the reading and not the rest of the logger's buffer, and lends its
 * quota to a helper, which can't drop what the radio holds.
 *
 * After 'make lib':
 *     cc -std=c11 -Iinclude examples/valve.c build/lib/liblokhazim.a -o build/valve && build/valve
 * It prints what examples/valve.out has. (valve.replay is a story of the same kind for the replay
 * program, valve.txt the captions that 'make run' prints between its answers.)
 */
#include "lokhazim.h"

#include <inttypes.h>
#include <stdio.h>
#include <stdlib.h>
#include <string.h>

/* The parts, each by the number of its quota. */
enum part { VALVE = 0, LOGGER = 1, RADIO = 2 };

static const char reading[] = "pressure 7 bar";

/* The heap: its bytes, and outside of them its accounts, which calls read and write in place. */
static _Alignas(LOKHAZIM_ALIGNMENT) uint8_t memory[256];
static struct lokhazim_accounts accounts;
static const struct lokhazim_heap heap = { memory, sizeof memory, &accounts };

/* Stops the program where a call does not end as the story has it. */
static void expect(enum lokhazim_refusal refusal, enum lokhazim_refusal expected)
{
    if (refusal != expected) {
        fprintf(stderr, "FAILED: refusal %d, but this story has %d here.\n", (int)refusal, (int)expected);
        exit(EXIT_FAILURE);
    }
}

/* What remains of a part's quota. */
static uint32_t remaining(enum part part)
{
    uint32_t remainder;
    expect(lokhazim_heap_remaining(&heap, part, &remainder), LOKHAZIM_ACCEPTED);
    return remainder;
}

/* A new object of a part. */
static struct lokhazim_handle make(enum part part, uint32_t bytes)
{
    struct lokhazim_handle handle;
    expect(lokhazim_heap_allocate(&heap, part, bytes, &handle), LOKHAZIM_ACCEPTED);
    return handle;
}

/* The bytes of a handle. */
static uint8_t *bytes_of(struct lokhazim_handle handle)
{
    uint8_t *object;
    expect(lokhazim_heap_lend(&heap, handle, &object), LOKHAZIM_ACCEPTED);
    return object;
}

/* Drops a part's hold, and says what the part gets back. */
static uint32_t release(enum part part, struct lokhazim_handle handle)
{
    uint32_t refund;
    expect(lokhazim_heap_release(&heap, part, handle, &refund), LOKHAZIM_ACCEPTED);
    return refund;
}

/* Each part gets its quota: 48, 120 and 64, and nothing for the others. */
static void open_heap(void)
{
    const struct lokhazim_grants grants = { { 48, 120, 64 } };
    expect(lokhazim_heap_open(&heap, grants, LOKHAZIM_PLAIN, LOKHAZIM_EDITION_1), LOKHAZIM_ACCEPTED);
    printf("The heap is open: 48 for the valve, 120 for the logger, 64 for the radio.\n");
}

/* The logger fills two buffers, and has nearly spent its quota. */
static struct lokhazim_handle log_readings(void)
{
    const struct lokhazim_handle first = make(LOGGER, 40);
    memcpy(bytes_of(first), reading, sizeof reading);
    make(LOGGER, 40);
    printf("The logger made two buffers of 40 bytes; %" PRIu32 " of its quota remain.\n", remaining(LOGGER));
    return first;
}

/* The logger asks for more than is left: refusal 8, and nothing has changed. */
static void ask_for_too_much(void)
{
    const uint32_t before = remaining(LOGGER);
    const uint32_t charge = 32 + LOKHAZIM_HEADER;
    struct lokhazim_handle none;
    const enum lokhazim_refusal refusal = lokhazim_heap_allocate(&heap, LOGGER, 32, &none);
    expect(refusal, LOKHAZIM_QUOTA_EXCEEDED);
    printf("It asks for 32 bytes more, which cost %" PRIu32 ": refusal %d.\n", charge, (int)refusal);
    printf("  Subtracted unseen, %" PRIu32 " would be left; %" PRIu32 " are.\n", before - charge, remaining(LOGGER));
}

/* The radio claims the logger's buffer by a handle of the reading alone. So the buffer stays when the logger releases it. */
static struct lokhazim_handle hand_over(struct lokhazim_handle buffer)
{
    const struct lokhazim_handle part = lokhazim_handle_narrowed(buffer, 0, sizeof reading);
    uint32_t bytes;
    printf("The radio gets a handle of %" PRIu32 " bytes of the first buffer.\n", part.length);
    expect(lokhazim_heap_claim(&heap, RADIO, part, &bytes), LOKHAZIM_ACCEPTED);
    printf("  It claims by that the whole buffer, %" PRIu32 " bytes; %" PRIu32 " of its quota remain.\n",
           bytes, remaining(RADIO));
    printf("The logger releases the buffer and gets %" PRIu32 " back.\n", release(LOGGER, buffer));
    printf("  The radio still reads \"%s\".\n", (const char *)bytes_of(part));
    return part;
}

/* The valve's close command finds room, whatever the others do. */
static void close_valve(void)
{
    const struct lokhazim_handle command = make(VALVE, 32);
    memcpy(bytes_of(command), "close", sizeof "close");
    printf("The valve's close command lies at offset %" PRIu32 "; %" PRIu32 " of its quota remain.\n",
           command.base, remaining(VALVE));
}

/* A helper works with the radio's quota: it may release what the radio hands it, but not drop everything. */
static void lend_quota(void)
{
    expect(lokhazim_heap_clear_permissions(&heap, RADIO, LOKHAZIM_MAY_FREE_ALL, NULL), LOKHAZIM_ACCEPTED);
    const enum lokhazim_refusal refusal = lokhazim_heap_free_all(&heap, RADIO, NULL);
    expect(refusal, LOKHAZIM_NOT_PERMITTED);
    printf("A helper with the radio's quota may not drop everything: refusal %d.\n", (int)refusal);
}

/* The last hold is dropped: the bytes are cleared, and the handle names nothing any more. */
static void drop_last_hold(struct lokhazim_handle part)
{
    uint8_t *object;
    printf("The radio releases its claim and gets %" PRIu32 " back.\n", release(RADIO, part));
    expect(lokhazim_heap_lend(&heap, part, &object), LOKHAZIM_NO_SUCH_OBJECT);
    printf("  The handle is of no use now: refusal %d.\n", (int)LOKHAZIM_NO_SUCH_OBJECT);
}

int main(void)
{
    open_heap();
    const struct lokhazim_handle buffer = log_readings();
    ask_for_too_much();
    const struct lokhazim_handle part = hand_over(buffer);
    close_valve();
    lend_quota();
    drop_last_hold(part);
    expect(lokhazim_heap_check(&heap), LOKHAZIM_ACCEPTED);
    return EXIT_SUCCESS;
}
