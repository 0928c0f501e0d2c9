/*
 * What each field of each struct means: IS asks a field of a struct for its number, in a reply whose numbers are
 * known. No two fields of one type have the same number in all replies, so two that are exchanged are noticed;
 * tests/meanings.rs exchanges them. What C hands over by its fields' names, the library has to read as such.
 */
#include "check.h"
#include "lokhazim.h"
#include "lokhazim_image.h"
#include "lokhazim_queue.h"
#include "lokhazim_report.h"
#include "lokhazim_settings.h"
#include "lokhazim_statistics.h"

#include <string.h>

#define IS(type, object, field, number) CHECK(((const struct type *)&(object))->field == (number))

static _Alignas(LOKHAZIM_ALIGNMENT) uint8_t memory[LOKHAZIM_HEAP_MAX];
static struct lokhazim_accounts accounts;
static uint8_t image[LOKHAZIM_IMAGE_MAX];
static uint8_t other[LOKHAZIM_IMAGE_MAX];

/* A heap of 512 bytes, with quarantine, of edition 1. Quota q is granted 1000 + 100 q. */
static struct lokhazim_heap small;
#define RAW memory, (size_t)512, &accounts

static struct lokhazim_grants some_grants(void)
{
    struct lokhazim_grants grants;
    for (uint32_t q = 0; q < LOKHAZIM_QUOTAS; q++) {
        grants.values[q] = 1000 + 100 * q;
    }
    return grants;
}

/* The object that the first allocation gives: C fills in its numbers by their names. */
static struct lokhazim_handle first_object(void)
{
    struct lokhazim_handle handle;
    handle.base = 8;
    handle.length = 40;
    handle.serial = 1;
    return handle;
}

static struct lokhazim_handle no_object(void)
{
    return (struct lokhazim_handle){ .base = 8, .length = 40, .serial = 9 };
}

static void is_first_object(const struct lokhazim_handle handle)
{
    IS(lokhazim_handle, handle, base, 8);
    IS(lokhazim_handle, handle, length, 40);
    IS(lokhazim_handle, handle, serial, 1);
}

/* The heap of 512 bytes anew, with the first object, which quota 3 holds twice. */
static void begin(void)
{
    struct lokhazim_handle handle;
    small.bytes = memory;
    small.length = 512;
    small.accounts = &accounts;
    ACCEPTED(lokhazim_heap_open(&small, some_grants(), LOKHAZIM_QUARANTINE, LOKHAZIM_EDITION_1));
    ACCEPTED(lokhazim_heap_allocate(&small, 3, 40, &handle));
    is_first_object(handle);
    ACCEPTED(lokhazim_heap_claim(&small, 3, first_object(), NULL));
}

/* What is allocated lies in the bytes, and the accounts and the length are those of the struct. */
static void heaps_mean(void)
{
    uint8_t *object;
    begin();
    IS(lokhazim_heap, small, bytes, memory);
    IS(lokhazim_heap, small, length, 512);
    IS(lokhazim_heap, small, accounts, &accounts);
    ACCEPTED(lokhazim_heap_lend(&small, first_object(), &object));
    CHECK(object == memory + 8);
    small.length = 504;
    REFUSED(INCONSISTENT, lokhazim_heap_check(&small));
}

static void accounts_mean(void)
{
    const struct lokhazim_grants grants = some_grants();
    begin();
    for (uint32_t q = 0; q < LOKHAZIM_QUOTAS; q++) {
        IS(lokhazim_grants, grants, values[q], 1000 + 100 * q);
        IS(lokhazim_accounts, accounts, quotas[q].grant, grants.values[q]);
    }
    IS(lokhazim_accounts, accounts, last_serial, 1);
    IS(lokhazim_accounts, accounts, holds[0].serial, 1);
    IS(lokhazim_accounts, accounts, kind, LOKHAZIM_QUARANTINE);
    IS(lokhazim_accounts, accounts, edition, LOKHAZIM_EDITION_1);
    IS(lokhazim_quota, accounts.quotas[3], grant, 1300);
    IS(lokhazim_quota, accounts.quotas[3], remainder, 1300 - 48);
    IS(lokhazim_quota, accounts.quotas[3], permissions, LOKHAZIM_MAY_ALL);
    IS(lokhazim_hold, accounts.holds[0], serial, 1);
    IS(lokhazim_hold, accounts.holds[0], quota, 3);
    IS(lokhazim_hold, accounts.holds[0], count, 2);
}

/* The second object has 16 bytes and the base 56. */
static void handles_mean(void)
{
    struct lokhazim_handle_reply reply;
    begin();
    reply = lokhazim_raw_allocate(RAW, 0, 1000);
    IS(lokhazim_handle_reply, reply, refusal, LOKHAZIM_QUOTA_EXCEEDED);
    IS(lokhazim_handle_reply, reply, handle.base, 0);
    reply = lokhazim_raw_reallocate(RAW, 3, first_object(), 16);
    IS(lokhazim_handle_reply, reply, refusal, 0);
    IS(lokhazim_handle_reply, reply, handle.base, 56);
    IS(lokhazim_handle_reply, reply, handle.serial, 2);
}

static void amounts_mean(void)
{
    struct lokhazim_amount_reply reply;
    begin();
    reply = lokhazim_raw_claim(RAW, 5, no_object());
    IS(lokhazim_amount_reply, reply, refusal, LOKHAZIM_NO_SUCH_OBJECT);
    IS(lokhazim_amount_reply, reply, amount, 0);
    reply = lokhazim_raw_claim(RAW, 5, first_object());
    IS(lokhazim_amount_reply, reply, refusal, 0);
    IS(lokhazim_amount_reply, reply, amount, 40);
}

/* Bytes 12 up to 20 of the first object; and the block behind it, of 24 bytes, with the second object. */
static void questions_mean(void)
{
    struct lokhazim_range_reply range;
    struct lokhazim_block_reply block;
    struct lokhazim_handle given;
    const struct lokhazim_handle part = { .base = 20, .length = 8, .serial = 1 };
    begin();
    range = lokhazim_raw_lend(RAW, part);
    IS(lokhazim_range_reply, range, refusal, 0);
    IS(lokhazim_range_reply, range, start, 20);
    IS(lokhazim_range_reply, range, end, 28);
    range = lokhazim_raw_lend(RAW, no_object());
    IS(lokhazim_range_reply, range, refusal, LOKHAZIM_NO_SUCH_OBJECT);
    IS(lokhazim_range_reply, range, end, 0);
    ACCEPTED(lokhazim_heap_allocate(&small, 0, 16, &given));
    ACCEPTED(lokhazim_heap_list_block(&small, 48, &block));
    IS(lokhazim_block_reply, block, refusal, 0);
    IS(lokhazim_block_reply, block, found, 1);
    IS(lokhazim_block_reply, block, offset, 48);
    IS(lokhazim_block_reply, block, size, 24);
    IS(lokhazim_block_reply, block, serial, 2);
    small.length = 56;
    REFUSED(HEAP_LENGTH, lokhazim_heap_list_block(&small, 48, &block));
    IS(lokhazim_block_reply, block, refusal, LOKHAZIM_HEAP_LENGTH);
    IS(lokhazim_block_reply, block, found, 0);
}

static void images_mean(void)
{
    struct lokhazim_image_reply written;
    struct lokhazim_examine_reply examined;
    begin();
    written = lokhazim_raw_image_write(image, 512, memory, 512, &accounts);
    IS(lokhazim_image_reply, written, refusal, LOKHAZIM_IMAGE_ROOM);
    IS(lokhazim_image_reply, written, length, 0);
    written = lokhazim_raw_image_write(image, sizeof image, memory, 512, &accounts);
    IS(lokhazim_image_reply, written, refusal, 0);
    IS(lokhazim_image_reply, written, length, 5120);
    examined = lokhazim_image_examine(image, written.length);
    IS(lokhazim_examine_reply, examined, refusal, 0);
    IS(lokhazim_examine_reply, examined, form, 2);
    IS(lokhazim_examine_reply, examined, heap_length, 512);
    examined = lokhazim_image_examine(image, 511);
    IS(lokhazim_examine_reply, examined, refusal, LOKHAZIM_IMAGE_LENGTH);
    IS(lokhazim_examine_reply, examined, form, 0);
}

/* Three bytes of the first object differ, from 20 on. */
static size_t two_images(void)
{
    size_t length = 0;
    begin();
    ACCEPTED(lokhazim_heap_save(&small, image, sizeof image, &length));
    memset(memory + 20, 255, 3);
    ACCEPTED(lokhazim_heap_save(&small, other, sizeof other, &length));
    return length;
}

static void comparisons_mean(void)
{
    const size_t length = two_images();
    struct lokhazim_compare_reply compared = lokhazim_image_compare(image, length, other, length, 0);
    IS(lokhazim_compare_reply, compared, refusal, 0);
    IS(lokhazim_compare_reply, compared, which, 0);
    IS(lokhazim_compare_reply, compared, kind, LOKHAZIM_BYTES_DIFFER);
    IS(lokhazim_compare_reply, compared, place, 20);
    IS(lokhazim_compare_reply, compared, length, 3);
    compared = lokhazim_image_compare(image, length, other, length - 1, 0);
    IS(lokhazim_compare_reply, compared, refusal, LOKHAZIM_IMAGE_LENGTH);
    IS(lokhazim_compare_reply, compared, which, 2);
    IS(lokhazim_compare_reply, compared, kind, 0);
}

/* The position behind the bytes is part 3, the byte behind them. */
static void next_differences_mean(void)
{
    const size_t length = two_images();
    struct lokhazim_next_reply next = lokhazim_image_compare_next(image, length, other, length, 0, 0);
    IS(lokhazim_next_reply, next, refusal, 0);
    IS(lokhazim_next_reply, next, which, 0);
    IS(lokhazim_next_reply, next, kind, LOKHAZIM_BYTES_DIFFER);
    IS(lokhazim_next_reply, next, place, 20);
    IS(lokhazim_next_reply, next, length, 3);
    IS(lokhazim_next_reply, next, part, 3);
    IS(lokhazim_next_reply, next, at, 23);
    next = lokhazim_image_compare_next(image, length, other, length - 1, 0, 0);
    IS(lokhazim_next_reply, next, refusal, LOKHAZIM_IMAGE_LENGTH);
    IS(lokhazim_next_reply, next, which, 2);
}

/* Quota 3 sends the first object to quota 7. */
static void queues_mean(void)
{
    struct lokhazim_queue queue = { .sender = 3, .receiver = 7, .count = 0 };
    struct lokhazim_queue fresh = lokhazim_queue_new(3, 7);
    struct lokhazim_handle received;
    IS(lokhazim_queue, fresh, sender, 3);
    IS(lokhazim_queue, fresh, receiver, 7);
    IS(lokhazim_queue, fresh, count, 0);
    begin();
    REFUSED(NO_SUCH_OBJECT, lokhazim_queue_send(&small, &queue, no_object()));
    CHECK(accounts.quotas[7].remainder == 1700);
    ACCEPTED(lokhazim_queue_send(&small, &queue, first_object()));
    CHECK(accounts.quotas[7].remainder == 1700 - 48);
    IS(lokhazim_queue, queue, sender, 3);
    IS(lokhazim_queue, queue, receiver, 7);
    IS(lokhazim_queue, queue, count, 1);
    is_first_object(queue.handles[0]);
    IS(lokhazim_queue, queue, handles[0].length, 40);
    ACCEPTED(lokhazim_queue_receive(&queue, &received));
    is_first_object(received);
    IS(lokhazim_queue, queue, count, 0);
    REFUSED(QUEUE_EMPTY, lokhazim_queue_receive(&queue, &received));
}

static void reports_mean(void)
{
    uint8_t text[LOKHAZIM_REPORT_LENGTH];
    struct lokhazim_export_reply exported = lokhazim_raw_report_export(text, 5, some_grants());
    struct lokhazim_import_reply imported;
    IS(lokhazim_export_reply, exported, refusal, LOKHAZIM_REPORT_ROOM);
    IS(lokhazim_export_reply, exported, length, 0);
    exported = lokhazim_raw_report_export(text, sizeof text, some_grants());
    IS(lokhazim_export_reply, exported, refusal, 0);
    IS(lokhazim_export_reply, exported, length, LOKHAZIM_REPORT_LENGTH);
    imported = lokhazim_raw_report_import(text, sizeof text);
    IS(lokhazim_import_reply, imported, refusal, 0);
    IS(lokhazim_import_reply, imported, line, 0);
    IS(lokhazim_import_reply, imported, grants.values[3], 1300);
    text[4 * LOKHAZIM_REPORT_LINE] = 'x';
    imported = lokhazim_raw_report_import(text, sizeof text);
    IS(lokhazim_import_reply, imported, refusal, LOKHAZIM_REPORT_CHARACTER);
    IS(lokhazim_import_reply, imported, line, 5);
    IS(lokhazim_import_reply, imported, grants.values[3], 0);
}

/* Two entries: name 7 of version 300 with 5 bytes, and name 9 of version 301 with 2. */
static void settings_mean(void)
{
    uint8_t store[32] = { 0 };
    struct lokhazim_find_reply found;
    struct lokhazim_entry_reply entry;
    struct lokhazim_add_reply added = lokhazim_raw_settings_add(store, 8, 0, 7, 300, (const uint8_t *)"valve", 5);
    IS(lokhazim_add_reply, added, refusal, LOKHAZIM_SETTINGS_FULL);
    IS(lokhazim_add_reply, added, used, 0);
    added = lokhazim_raw_settings_add(store, sizeof store, 0, 7, 300, (const uint8_t *)"valve", 5);
    IS(lokhazim_add_reply, added, refusal, 0);
    IS(lokhazim_add_reply, added, used, 9);
    CHECK(lokhazim_raw_settings_add(store, sizeof store, 9, 9, 301, (const uint8_t *)"on", 2).used == 15);
    found = lokhazim_raw_settings_find(store, sizeof store, 0, store, sizeof store, 15, 9, 301);
    IS(lokhazim_find_reply, found, refusal, 0);
    IS(lokhazim_find_reply, found, store, LOKHAZIM_SETTINGS_DEFAULTS);
    IS(lokhazim_find_reply, found, start, 13);
    IS(lokhazim_find_reply, found, end, 15);
    found = lokhazim_raw_settings_find(store, sizeof store, 15, store, sizeof store, 0, 9, 300);
    IS(lokhazim_find_reply, found, refusal, LOKHAZIM_SETTINGS_MISSING);
    IS(lokhazim_find_reply, found, store, LOKHAZIM_SETTINGS_NOWHERE);
    entry = lokhazim_raw_settings_entry(store, sizeof store, 15, 0);
    IS(lokhazim_entry_reply, entry, refusal, 0);
    IS(lokhazim_entry_reply, entry, there, 1);
    IS(lokhazim_entry_reply, entry, version, 300);
    IS(lokhazim_entry_reply, entry, name, 7);
    IS(lokhazim_entry_reply, entry, start, 4);
    IS(lokhazim_entry_reply, entry, end, 9);
}

/*
 * The largest heap, of edition 2: live blocks of 24, 16 and 16 bytes, one of 112 in quarantine, and free ones of 32 and
 * of 32,568, which begins at 200. The longest request of unit 64 there has the base 256.
 */
static void statistics_mean(void)
{
    struct lokhazim_statistics now;
    struct lokhazim_quota_statistics own;
    struct lokhazim_handle shared, gap, kept, waiting;
    struct lokhazim_grants grants = { { 100000, 50000 } };
    const struct lokhazim_heap largest = { memory, sizeof memory, &accounts };
    ACCEPTED(lokhazim_heap_open(&largest, grants, LOKHAZIM_QUARANTINE, LOKHAZIM_EDITION_2));
    ACCEPTED(lokhazim_heap_allocate(&largest, 0, 16, &shared));
    ACCEPTED(lokhazim_heap_allocate(&largest, 0, 40, &gap));
    ACCEPTED(lokhazim_heap_allocate(&largest, 0, 8, &kept));
    ACCEPTED(lokhazim_heap_claim(&largest, 1, shared, NULL));
    ACCEPTED(lokhazim_heap_release(&largest, 0, gap, NULL));
    ACCEPTED(lokhazim_heap_sweep(&largest, NULL));
    ACCEPTED(lokhazim_heap_allocate(&largest, 0, 104, &waiting));
    ACCEPTED(lokhazim_heap_release(&largest, 0, waiting, NULL));
    ACCEPTED(lokhazim_heap_allocate(&largest, 0, 8, &kept));
    ACCEPTED(lokhazim_heap_statistics(&largest, &now));
    IS(lokhazim_statistics, now, refusal, 0);
    IS(lokhazim_statistics, now, last_serial, 5);
    IS(lokhazim_statistics, now, records, 4);
    IS(lokhazim_statistics, now, free.bytes, 32600);
    IS(lokhazim_statistics, now, live.bytes, 56);
    IS(lokhazim_statistics, now, quarantined.bytes, 112);
    IS(lokhazim_statistics, now, largest_free, 32568);
    IS(lokhazim_statistics, now, fragmented, 32);
    IS(lokhazim_statistics, now, largest_8, 4088);
    IS(lokhazim_statistics, now, largest_16, 8176);
    IS(lokhazim_statistics, now, largest_32, 16352);
    IS(lokhazim_statistics, now, largest_64, 32512);
    IS(lokhazim_block_count, now.live, blocks, 3);
    IS(lokhazim_block_count, now.live, bytes, 56);
    ACCEPTED(lokhazim_heap_quota_statistics(&largest, 0, &own));
    IS(lokhazim_quota_statistics, own, refusal, 0);
    IS(lokhazim_quota_statistics, own, grant, 100000);
    IS(lokhazim_quota_statistics, own, remaining, 100000 - 56);
    IS(lokhazim_quota_statistics, own, objects, 3);
    IS(lokhazim_quota_statistics, own, shared, 1);
}

int main(void)
{
    heaps_mean();
    accounts_mean();
    handles_mean();
    amounts_mean();
    questions_mean();
    images_mean();
    comparisons_mean();
    next_differences_mean();
    queues_mean();
    reports_mean();
    settings_mean();
    statistics_mean();
    return EXIT_SUCCESS;
}
