/*
 * Sets every field of every struct that C and the Rust crate share to a distinct number, or reads them.
 *
 *     fields set      writes the structs to standard output, as they lie in memory
 *     fields print    reads such structs from standard input and prints each field's number
 */
#include "lokhazim_image.h"
#include "lokhazim_queue.h"
#include "lokhazim_report.h"
#include "lokhazim_settings.h"

#include <inttypes.h>
#include <stdio.h>
#include <stdlib.h>
#include <string.h>

static int setting;

/* The number of the last field of more than one byte, and of the next of one byte. */
static uint32_t wide;
static uint8_t narrow;

static void print(uint64_t number)
{
    if (!setting) {
        printf("%" PRIu64 "\n", number);
    }
}

/* Multiplied by an odd number, distinct numbers stay distinct, and differ in every byte. */
static void visit32(uint32_t *field)
{
    wide++;
    if (setting) {
        *field = wide * 0x9E3779B1u;
    }
    print(*field);
}

static void visit16(uint16_t *field)
{
    wide++;
    if (setting) {
        *field = (uint16_t)(wide * 0x9E37u);
    }
    print(*field);
}

static void visit_size(size_t *field)
{
    wide++;
    if (setting) {
        *field = wide * (size_t)0x9E3779B97F4A7C15u;
    }
    print(*field);
}

static void visit8(uint8_t *field)
{
    if (setting) {
        *field = narrow++;
    }
    print(*field);
}

static void visit_quota(struct lokhazim_quota *it)
{
    visit32(&it->grant);
    visit32(&it->remainder);
    visit8(&it->permissions);
}

static void visit_hold(struct lokhazim_hold *it)
{
    visit32(&it->serial);
    visit8(&it->quota);
    visit8(&it->count);
}

static void visit_accounts(struct lokhazim_accounts *it)
{
    for (int i = 0; i < LOKHAZIM_QUOTAS; i++) {
        visit_quota(&it->quotas[i]);
    }
    visit32(&it->last_serial);
    for (int i = 0; i < LOKHAZIM_HOLDS; i++) {
        visit_hold(&it->holds[i]);
    }
    visit8(&it->kind);
    visit8(&it->edition);
}

static void visit_handle(struct lokhazim_handle *it)
{
    visit32(&it->base);
    visit32(&it->length);
    visit32(&it->serial);
}

static void visit_grants(struct lokhazim_grants *it)
{
    for (int i = 0; i < LOKHAZIM_QUOTAS; i++) {
        visit32(&it->values[i]);
    }
}

static void visit_amount_reply(struct lokhazim_amount_reply *it)
{
    visit32(&it->refusal);
    visit32(&it->amount);
}

static void visit_handle_reply(struct lokhazim_handle_reply *it)
{
    visit32(&it->refusal);
    visit_handle(&it->handle);
}

static void visit_range_reply(struct lokhazim_range_reply *it)
{
    visit32(&it->refusal);
    visit_size(&it->start);
    visit_size(&it->end);
}

static void visit_block_reply(struct lokhazim_block_reply *it)
{
    visit32(&it->refusal);
    visit32(&it->found);
    visit_size(&it->offset);
    visit_size(&it->size);
    visit32(&it->serial);
}

static void visit_image_reply(struct lokhazim_image_reply *it)
{
    visit32(&it->refusal);
    visit_size(&it->length);
}

static void visit_examine_reply(struct lokhazim_examine_reply *it)
{
    visit32(&it->refusal);
    visit32(&it->form);
    visit_size(&it->heap_length);
}

static void visit_compare_reply(struct lokhazim_compare_reply *it)
{
    visit32(&it->refusal);
    visit32(&it->which);
    visit32(&it->kind);
    visit_size(&it->place);
    visit_size(&it->length);
}

static void visit_next_reply(struct lokhazim_next_reply *it)
{
    visit32(&it->refusal);
    visit32(&it->which);
    visit32(&it->kind);
    visit_size(&it->place);
    visit_size(&it->length);
    visit32(&it->part);
    visit_size(&it->at);
}

static void visit_import_reply(struct lokhazim_import_reply *it)
{
    visit_grants(&it->grants);
    visit32(&it->refusal);
    visit32(&it->line);
}

static void visit_export_reply(struct lokhazim_export_reply *it)
{
    visit32(&it->refusal);
    visit_size(&it->length);
}

static void visit_find_reply(struct lokhazim_find_reply *it)
{
    visit32(&it->refusal);
    visit32(&it->store);
    visit_size(&it->start);
    visit_size(&it->end);
}

static void visit_add_reply(struct lokhazim_add_reply *it)
{
    visit32(&it->refusal);
    visit_size(&it->used);
}

static void visit_entry_reply(struct lokhazim_entry_reply *it)
{
    visit32(&it->refusal);
    visit32(&it->there);
    visit16(&it->version);
    visit8(&it->name);
    visit_size(&it->start);
    visit_size(&it->end);
}

static void visit_queue(struct lokhazim_queue *it)
{
    visit32(&it->sender);
    visit32(&it->receiver);
    visit32(&it->count);
    for (size_t i = 0; i < LOKHAZIM_QUEUE_PLACES; i++) {
        visit_handle(&it->handles[i]);
    }
}

/* Stops where fewer bytes could be read or written than a struct has. */
static void need(size_t done)
{
    if (done != 1) {
        fprintf(stderr, "FAILED: the structs have another size on the other side.\n");
        exit(EXIT_FAILURE);
    }
}

/* Reads a struct or begins with zeros, visits its fields, and writes it where they were set. */
#define EXCHANGE(name)                                          \
    do {                                                        \
        struct lokhazim_##name it;                              \
        memset(&it, 0, sizeof it);                              \
        if (!setting) {                                         \
            need(fread(&it, sizeof it, 1, stdin));              \
        }                                                       \
        visit_##name(&it);                                      \
        if (setting) {                                          \
            need(fwrite(&it, sizeof it, 1, stdout));            \
        }                                                       \
    } while (0)

int main(int count, char **words)
{
    setting = count == 2 && strcmp(words[1], "set") == 0;
    EXCHANGE(quota);
    EXCHANGE(hold);
    EXCHANGE(accounts);
    EXCHANGE(handle);
    EXCHANGE(grants);
    EXCHANGE(amount_reply);
    EXCHANGE(handle_reply);
    EXCHANGE(range_reply);
    EXCHANGE(block_reply);
    EXCHANGE(image_reply);
    EXCHANGE(examine_reply);
    EXCHANGE(compare_reply);
    EXCHANGE(next_reply);
    EXCHANGE(import_reply);
    EXCHANGE(export_reply);
    EXCHANGE(find_reply);
    EXCHANGE(add_reply);
    EXCHANGE(entry_reply);
    EXCHANGE(queue);
    return EXIT_SUCCESS;
}
