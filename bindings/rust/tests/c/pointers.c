/*
 * Pointers that the headers check: each function gives refusal 100 where one is null or the heap is not aligned,
 * changes neither heap nor accounts, and leaves zeros as its answer. Where a pointer takes a number, null is taken.
 */
#include "check.h"
#include "lokhazim.h"
#include "lokhazim_image.h"
#include "lokhazim_queue.h"
#include "lokhazim_report.h"
#include "lokhazim_settings.h"
#include "lokhazim_statistics.h"

#include <string.h>

static _Alignas(LOKHAZIM_ALIGNMENT) uint8_t memory[1024 + LOKHAZIM_ALIGNMENT];
static struct lokhazim_accounts accounts;
static const struct lokhazim_heap heap = { memory, 1024, &accounts };
static const struct lokhazim_grants grants = { { 500, 500 } };
static uint8_t image[LOKHAZIM_IMAGE_MAX];
static struct lokhazim_handle object;

/* What stands in every answer before a call. */
static const struct lokhazim_handle some = { 1, 2, 3 };

static int is_zero(const void *bytes, size_t count)
{
    const uint8_t *byte = bytes;
    for (size_t i = 0; i < count; i++) {
        if (byte[i] != 0) {
            return 0;
        }
    }
    return 1;
}

/* Every call over a heap that is not usable. */
static void no_call(const struct lokhazim_heap *bad)
{
    struct lokhazim_handle given = some;
    struct lokhazim_queue queue = lokhazim_queue_new(0, 1);
    struct lokhazim_block_reply block;
    struct lokhazim_statistics now;
    struct lokhazim_quota_statistics own;
    uint8_t *bytes = memory;
    uint32_t amount = 9;
    size_t length = 9;
    REFUSED(BAD_POINTER, lokhazim_heap_open(bad, grants, LOKHAZIM_PLAIN, LOKHAZIM_EDITION_1));
    REFUSED(BAD_POINTER, lokhazim_heap_allocate(bad, 0, 8, &given));
    CHECK(is_zero(&given, sizeof given));
    given = some;
    REFUSED(BAD_POINTER, lokhazim_heap_allocate_array(bad, 0, 2, 4, &given));
    CHECK(is_zero(&given, sizeof given));
    given = some;
    REFUSED(BAD_POINTER, lokhazim_heap_reallocate(bad, 0, object, 8, &given));
    CHECK(is_zero(&given, sizeof given));
    REFUSED(BAD_POINTER, lokhazim_heap_claim(bad, 1, object, &amount));
    CHECK(amount == 0);
    amount = 9;
    REFUSED(BAD_POINTER, lokhazim_heap_release(bad, 0, object, &amount));
    CHECK(amount == 0);
    REFUSED(BAD_POINTER, lokhazim_heap_release(bad, 0, object, NULL));
    REFUSED(BAD_POINTER, lokhazim_heap_free_all(bad, 0, NULL));
    REFUSED(BAD_POINTER, lokhazim_heap_clear_permissions(bad, 0, LOKHAZIM_MAY_ALL, NULL));
    REFUSED(BAD_POINTER, lokhazim_heap_sweep(bad, NULL));
    REFUSED(BAD_POINTER, lokhazim_heap_lend(bad, object, &bytes));
    CHECK(bytes == NULL);
    REFUSED(BAD_POINTER, lokhazim_heap_write(bad, object, 0, 255));
    REFUSED(BAD_POINTER, lokhazim_heap_remaining(bad, 0, NULL));
    REFUSED(BAD_POINTER, lokhazim_heap_can_release(bad, 0, object));
    REFUSED(BAD_POINTER, lokhazim_heap_list_block(bad, 0, &block));
    CHECK(block.refusal == LOKHAZIM_BAD_POINTER && block.found == 0);
    REFUSED(BAD_POINTER, lokhazim_heap_check(bad));
    REFUSED(BAD_POINTER, lokhazim_heap_save(bad, image, sizeof image, &length));
    CHECK(length == 0);
    REFUSED(BAD_POINTER, lokhazim_heap_save_form_1(bad, image, sizeof image, NULL));
    REFUSED(BAD_POINTER, lokhazim_heap_resume(bad, image, sizeof image));
    REFUSED(BAD_POINTER, lokhazim_heap_restore(bad, image, sizeof image));
    REFUSED(BAD_POINTER, lokhazim_queue_send(bad, &queue, object));
    REFUSED(BAD_POINTER, lokhazim_heap_statistics(bad, &now));
    CHECK(now.refusal == LOKHAZIM_BAD_POINTER && now.free.bytes == 0);
    REFUSED(BAD_POINTER, lokhazim_heap_quota_statistics(bad, 0, &own));
    CHECK(own.refusal == LOKHAZIM_BAD_POINTER && own.grant == 0);
}

/* Null pointers for what may not be lost, over a heap that is usable. */
static void no_answer(void)
{
    struct lokhazim_queue queue = lokhazim_queue_new(0, 1);
    struct lokhazim_handle given = some;
    REFUSED(BAD_POINTER, lokhazim_heap_allocate(&heap, 0, 8, NULL));
    REFUSED(BAD_POINTER, lokhazim_heap_allocate_array(&heap, 0, 2, 4, NULL));
    REFUSED(BAD_POINTER, lokhazim_heap_reallocate(&heap, 0, object, 8, NULL));
    REFUSED(BAD_POINTER, lokhazim_heap_lend(&heap, object, NULL));
    REFUSED(BAD_POINTER, lokhazim_heap_list_block(&heap, 0, NULL));
    REFUSED(BAD_POINTER, lokhazim_heap_save(&heap, NULL, sizeof image, NULL));
    REFUSED(BAD_POINTER, lokhazim_heap_save_form_1(&heap, NULL, sizeof image, NULL));
    REFUSED(BAD_POINTER, lokhazim_heap_resume(&heap, NULL, sizeof image));
    REFUSED(BAD_POINTER, lokhazim_heap_restore(&heap, NULL, sizeof image));
    REFUSED(BAD_POINTER, lokhazim_queue_send(&heap, NULL, object));
    REFUSED(BAD_POINTER, lokhazim_queue_receive(NULL, &given));
    CHECK(is_zero(&given, sizeof given));
    REFUSED(BAD_POINTER, lokhazim_queue_receive(&queue, NULL));
    REFUSED(BAD_POINTER, lokhazim_heap_statistics(&heap, NULL));
    REFUSED(BAD_POINTER, lokhazim_heap_quota_statistics(&heap, 0, NULL));
}

/* Texts and stores. */
static void beside_the_heap(void)
{
    struct lokhazim_grants imported = { { 7 } };
    struct lokhazim_entry_reply entry;
    const uint8_t *value = memory;
    uint8_t store[8] = { 0 };
    char text[8] = "";
    uint32_t line = 9;
    size_t used = 0, length = 9;
    REFUSED(BAD_POINTER, lokhazim_report_import(NULL, 0, &imported, &line));
    CHECK(imported.values[0] == 7 && line == 0);
    REFUSED(BAD_POINTER, lokhazim_report_import(text, 0, NULL, NULL));
    REFUSED(BAD_POINTER, lokhazim_report_export(NULL, 0, &imported));
    REFUSED(BAD_POINTER, lokhazim_report_export(text, sizeof text, NULL));
    REFUSED(BAD_POINTER, lokhazim_settings_find(NULL, 0, 0, store, 8, 0, 1, 1, &value, &length));
    CHECK(value == NULL && length == 0);
    REFUSED(BAD_POINTER, lokhazim_settings_find(store, 8, 0, NULL, 0, 0, 1, 1, &value, &length));
    REFUSED(BAD_POINTER, lokhazim_settings_find(store, 8, 0, store, 8, 0, 1, 1, NULL, &length));
    REFUSED(BAD_POINTER, lokhazim_settings_find(store, 8, 0, store, 8, 0, 1, 1, &value, NULL));
    REFUSED(BAD_POINTER, lokhazim_settings_add(NULL, 0, &used, 1, 1, store, 0));
    REFUSED(BAD_POINTER, lokhazim_settings_add(store, 8, NULL, 1, 1, store, 0));
    REFUSED(BAD_POINTER, lokhazim_settings_add(store, 8, &used, 1, 1, NULL, 0));
    REFUSED(BAD_POINTER, lokhazim_settings_entry(NULL, 0, 0, 0, &entry));
    CHECK(entry.refusal == LOKHAZIM_BAD_POINTER && entry.there == 0);
    REFUSED(BAD_POINTER, lokhazim_settings_entry(store, 8, 0, 0, NULL));
}

int main(void)
{
    static uint8_t before[sizeof memory];
    struct lokhazim_accounts owed;
    const struct lokhazim_heap no_bytes = { NULL, 1024, &accounts };
    const struct lokhazim_heap no_accounts = { memory, 1024, NULL };
    ACCEPTED(lokhazim_heap_open(&heap, grants, LOKHAZIM_PLAIN, LOKHAZIM_EDITION_1));
    ACCEPTED(lokhazim_heap_allocate(&heap, 0, 40, &object));
    memcpy(before, memory, sizeof memory);
    memcpy(&owed, &accounts, sizeof owed);
    no_call(NULL);
    no_call(&no_bytes);
    no_call(&no_accounts);
    for (size_t at = 1; at < LOKHAZIM_ALIGNMENT; at++) {
        const struct lokhazim_heap shifted = { memory + at, 1024, &accounts };
        no_call(&shifted);
    }
    for (size_t at = 1; at < sizeof(uint32_t); at++) {
        void *const place = (uint8_t *)&accounts + at;
        const struct lokhazim_heap shifted = { memory, 1024, place };
        no_call(&shifted);
    }
    no_answer();
    beside_the_heap();
    CHECK(memcmp(before, memory, sizeof memory) == 0 && memcmp(&owed, &accounts, sizeof owed) == 0);
    ACCEPTED(lokhazim_heap_release(&heap, 0, object, NULL));
    return EXIT_SUCCESS;
}
