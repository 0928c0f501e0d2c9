/*
 * Images from C: a heap with every record used is written and read back, a refused image leaves heap
 * and accounts alone, the caller's null pointer for the length is taken, two images are compared, form 1
 * is written of what it can carry and of nothing else, an image is moved up and down again, and the kind
 * and the edition of the heap go with its image.
 */
#include "check.h"
#include "lokhazim_image.h"
#include "same.h"

#include <stdlib.h>
#include <string.h>

static _Alignas(LOKHAZIM_ALIGNMENT) uint8_t memory[LOKHAZIM_HEAP_MAX];
static _Alignas(LOKHAZIM_ALIGNMENT) uint8_t other[LOKHAZIM_HEAP_MAX];
static uint8_t image[LOKHAZIM_IMAGE_MAX + 1];
static uint8_t changed[LOKHAZIM_IMAGE_MAX];
static struct lokhazim_accounts accounts;
static struct lokhazim_accounts back;
static const struct lokhazim_heap heap = { memory, sizeof memory, &accounts };
static const struct lokhazim_heap second = { other, sizeof other, &back };

/* Every quota holds objects, and every record is used. */
static void fill(void)
{
    struct lokhazim_grants grants;
    for (uint32_t i = 0; i < LOKHAZIM_QUOTAS; i++) {
        grants.values[i] = 100000 + i;
    }
    CHECK(lokhazim_heap_open(&heap, grants, LOKHAZIM_PLAIN, LOKHAZIM_EDITION_1) == LOKHAZIM_ACCEPTED);
    for (uint32_t i = 0; i < LOKHAZIM_HOLDS; i++) {
        struct lokhazim_handle handle;
        CHECK(lokhazim_heap_allocate(&heap, i % LOKHAZIM_QUOTAS, 1 + i % 40, &handle) == LOKHAZIM_ACCEPTED);
        memset(memory + handle.base, (int)i, handle.length);
    }
}

/* The second image has one byte of the first object changed, one record's count, and the last quota's permissions. */
static void compare(void)
{
    struct lokhazim_compare_reply reply;
    struct lokhazim_next_reply next;
    const size_t length = LOKHAZIM_IMAGE_MAX;
    memory[8] ^= 1;
    accounts.holds[5].count = 2;
    accounts.quotas[LOKHAZIM_QUOTAS - 1].permissions = LOKHAZIM_MAY_CLAIM;
    CHECK(lokhazim_heap_save(&heap, changed, sizeof changed, NULL) == LOKHAZIM_ACCEPTED);

    reply = lokhazim_image_compare(image, length, changed, length, 0);
    CHECK(reply.refusal == 0 && reply.kind == LOKHAZIM_QUOTA_DIFFERS && reply.place == LOKHAZIM_QUOTAS - 1 && reply.length == 0);
    reply = lokhazim_image_compare(image, length, changed, length, 1);
    CHECK(reply.refusal == 0 && reply.kind == LOKHAZIM_RECORD_DIFFERS && reply.place == 5 && reply.length == 0);
    reply = lokhazim_image_compare(image, length, changed, length, 2);
    CHECK(reply.refusal == 0 && reply.kind == LOKHAZIM_BYTES_DIFFER && reply.place == 8 && reply.length == 1);
    reply = lokhazim_image_compare(image, length, changed, length, 3);
    CHECK(reply.refusal == 0 && reply.kind == LOKHAZIM_NO_DIFFERENCE);
    reply = lokhazim_image_compare(image, length, changed, length - 1, 0);
    CHECK(reply.refusal == LOKHAZIM_IMAGE_LENGTH && reply.which == 2 && reply.kind == 0);

    next = lokhazim_image_compare_next(image, length, changed, length, 0, 0);
    CHECK(next.kind == LOKHAZIM_QUOTA_DIFFERS && next.place == LOKHAZIM_QUOTAS - 1);
    next = lokhazim_image_compare_next(image, length, changed, length, next.part, next.at);
    CHECK(next.kind == LOKHAZIM_RECORD_DIFFERS && next.place == 5);
    next = lokhazim_image_compare_next(image, length, changed, length, next.part, next.at);
    CHECK(next.kind == LOKHAZIM_BYTES_DIFFER && next.place == 8 && next.length == 1);
    next = lokhazim_image_compare_next(image, length, changed, length, next.part, next.at);
    CHECK(next.refusal == 0 && next.kind == LOKHAZIM_NO_DIFFERENCE);
}

/* The next difference of images that are not compared: from every part on what compare refuses, and at once. */
static void compare_refused(const uint8_t *first, size_t first_length, const uint8_t *second, size_t second_length, uint32_t which)
{
    const struct lokhazim_compare_reply reply = lokhazim_image_compare(first, first_length, second, second_length, 0);
    CHECK(reply.refusal != 0 && reply.which == which);
    for (uint32_t part = 0; part < 7; part++) {
        const struct lokhazim_next_reply next =
            lokhazim_image_compare_next(first, first_length, second, second_length, part, 0);
        CHECK(next.refusal == reply.refusal && next.which == which && next.kind == LOKHAZIM_NO_DIFFERENCE);
        CHECK(next.place == 0 && next.length == 0 && next.part == 0 && next.at == 0);
    }
}

/* An image that states a heap of 4,294,967,295 bytes, a heap byte changed behind its check, no bytes, and another length. */
static void not_compared(void)
{
    static uint8_t endless[512];
    const size_t length = LOKHAZIM_IMAGE_MAX;
    memset(endless + 8, 0xFF, 4);
    compare_refused(endless, sizeof endless, endless, sizeof endless, 1);
    compare_refused(image, length, endless, sizeof endless, 2);
    memcpy(changed, image, length);
    changed[length - 600] ^= 1;
    compare_refused(image, length, changed, length, 2);
    compare_refused(changed, length, image, length, 1);
    compare_refused(image, length, image, 0, 2);
    const struct lokhazim_heap least = { memory, LOKHAZIM_HEAP_MIN, &accounts };
    CHECK(lokhazim_heap_open(&least, (struct lokhazim_grants){ { 0 } }, LOKHAZIM_PLAIN, LOKHAZIM_EDITION_1)
          == LOKHAZIM_ACCEPTED);
    CHECK(lokhazim_heap_save(&least, changed, sizeof changed, NULL) == LOKHAZIM_ACCEPTED);
    compare_refused(image, length, changed, lokhazim_image_length(64), 0);
}

/* Writes form 1, which has to give a refusal, whether there is room or not, and to leave the bytes alone. */
static void not_carried(const char *why)
{
    size_t length = 1;
    memset(changed, 7, sizeof changed);
    if (lokhazim_heap_save_form_1(&heap, changed, sizeof changed, &length) != LOKHAZIM_IMAGE_NOT_CARRIED
        || lokhazim_heap_save_form_1(&heap, changed, 0, NULL) != LOKHAZIM_IMAGE_NOT_CARRIED) {
        fprintf(stderr, "FAILED: form 1 is written though %s.\n", why);
        exit(EXIT_FAILURE);
    }
    CHECK(length == 0 && changed[0] == 7);
}

/* A heap whose first and last place of form 1 are used. */
static void fill_form_1(void)
{
    struct lokhazim_grants grants = { { 1000 } };
    struct lokhazim_handle handle;
    grants.values[LOKHAZIM_FORM_1_QUOTAS - 1] = 2000;
    CHECK(lokhazim_heap_open(&heap, grants, LOKHAZIM_PLAIN, LOKHAZIM_EDITION_1) == LOKHAZIM_ACCEPTED);
    CHECK(lokhazim_heap_allocate(&heap, LOKHAZIM_FORM_1_QUOTAS - 1, 40, &handle) == LOKHAZIM_ACCEPTED);
    accounts.holds[LOKHAZIM_FORM_1_HOLDS - 1] = accounts.holds[0];
    accounts.holds[0] = (struct lokhazim_hold){ 0, 0, 0 };
    CHECK(lokhazim_heap_check(&heap) == LOKHAZIM_ACCEPTED);
}

/* Form 1 carries what fits it, and is refused by 28 for each single thing that doesn't. */
static void form_1(void)
{
    size_t length = 1;
    struct lokhazim_accounts kept;
    fill_form_1();
    kept = accounts;
    memset(&back, 0, sizeof back);
    CHECK(lokhazim_image_length_form_1(sizeof memory) == LOKHAZIM_IMAGE_MAX_FORM_1 && lokhazim_image_length_form_1(65) == 0);
    CHECK(lokhazim_heap_save_form_1(&heap, image, LOKHAZIM_IMAGE_MAX_FORM_1 - 1, &length) == LOKHAZIM_IMAGE_ROOM);
    CHECK(lokhazim_heap_save_form_1(&heap, image, sizeof image, &length) == LOKHAZIM_ACCEPTED);
    CHECK(length == LOKHAZIM_IMAGE_MAX_FORM_1);
    CHECK(lokhazim_image_examine(image, length).form == 1);
    CHECK(lokhazim_heap_restore(&second, image, length) == LOKHAZIM_ACCEPTED);
    CHECK(memcmp(memory, other, sizeof memory) == 0 && same(&accounts, &back));

    accounts.quotas[LOKHAZIM_FORM_1_QUOTAS].grant = 1;
    accounts.quotas[LOKHAZIM_FORM_1_QUOTAS].remainder = 1;
    not_carried("a quota behind its own has a grant");
    accounts = kept;
    accounts.holds[LOKHAZIM_FORM_1_HOLDS] = accounts.holds[LOKHAZIM_FORM_1_HOLDS - 1];
    accounts.holds[LOKHAZIM_FORM_1_HOLDS - 1] = (struct lokhazim_hold){ 0, 0, 0 };
    not_carried("a record behind its own is used");
    accounts = kept;
    CHECK(lokhazim_heap_clear_permissions(&heap, LOKHAZIM_QUOTAS - 1, LOKHAZIM_MAY_CLAIM, NULL)
          == LOKHAZIM_ACCEPTED);
    not_carried("a quota lacks a permission");

    CHECK(lokhazim_heap_save(&heap, changed, sizeof changed, &length) == LOKHAZIM_ACCEPTED);
    CHECK(lokhazim_image_examine(changed, length).form == 2);
    CHECK(lokhazim_heap_restore(&second, changed, length) == LOKHAZIM_ACCEPTED && same(&accounts, &back));
    const struct lokhazim_compare_reply reply = lokhazim_image_compare(image, LOKHAZIM_IMAGE_MAX_FORM_1, changed, length, 0);
    CHECK(reply.refusal == LOKHAZIM_IMAGE_FORMS_DIFFER && reply.which == 0);
}

/* An image of form 1 goes up and comes back down as it was; what is refused writes nothing. */
static void moves(void)
{
    static uint8_t back[LOKHAZIM_IMAGE_MAX_FORM_1];
    struct lokhazim_image_reply reply;
    fill_form_1();
    CHECK(lokhazim_heap_save_form_1(&heap, image, sizeof image, NULL) == LOKHAZIM_ACCEPTED);
    memset(changed, 7, sizeof changed);
    reply = lokhazim_image_move_up(image, LOKHAZIM_IMAGE_MAX_FORM_1, changed, sizeof changed - 1);
    CHECK(reply.refusal == LOKHAZIM_IMAGE_ROOM && reply.length == 0 && changed[0] == 7);
    reply = lokhazim_image_move_down(image, LOKHAZIM_IMAGE_MAX_FORM_1, changed, sizeof changed);
    CHECK(reply.refusal == LOKHAZIM_IMAGE_FORM && reply.length == 0 && changed[0] == 7);
    reply = lokhazim_image_move_up(image, LOKHAZIM_IMAGE_MAX_FORM_1, changed, sizeof changed);
    CHECK(reply.refusal == LOKHAZIM_ACCEPTED && reply.length == sizeof changed);
    CHECK(lokhazim_image_examine(changed, sizeof changed).form == 2);
    reply = lokhazim_image_move_down(changed, sizeof changed, back, sizeof back);
    CHECK(reply.refusal == LOKHAZIM_ACCEPTED && reply.length == sizeof back && memcmp(image, back, sizeof back) == 0);

    accounts.quotas[0].permissions = LOKHAZIM_MAY_CLAIM;
    CHECK(lokhazim_heap_save(&heap, changed, sizeof changed, NULL) == LOKHAZIM_ACCEPTED);
    reply = lokhazim_image_move_down(changed, sizeof changed, back, 0);
    CHECK(reply.refusal == LOKHAZIM_IMAGE_NOT_CARRIED && memcmp(image, back, sizeof back) == 0);
}

/* Kind and edition stand in form 2, each differs by itself and comes back; form 1 has plain heaps of edition 1 alone. */
static void marked(uint8_t kind, uint8_t edition)
{
    const size_t length = LOKHAZIM_IMAGE_MAX;
    uint32_t differences[3] = { LOKHAZIM_NO_DIFFERENCE, LOKHAZIM_NO_DIFFERENCE, LOKHAZIM_NO_DIFFERENCE };
    size_t count = 0;
    struct lokhazim_next_reply next = { 0, 0, 0, 0, 0, 0, 0 };
    memset(&back, 0, sizeof back);
    fill_form_1();
    CHECK(lokhazim_heap_save(&heap, image, sizeof image, NULL) == LOKHAZIM_ACCEPTED);
    accounts.kind = kind;
    accounts.edition = edition;
    not_carried("the heap has quarantine or is of edition 2");
    CHECK(lokhazim_heap_save(&heap, changed, sizeof changed, NULL) == LOKHAZIM_ACCEPTED);
    CHECK(image[6] == LOKHAZIM_EDITION_1 && image[7] == LOKHAZIM_PLAIN && changed[6] == edition && changed[7] == kind);
    CHECK(lokhazim_heap_restore(&second, changed, length) == LOKHAZIM_ACCEPTED && same(&accounts, &back));

    if (kind != LOKHAZIM_PLAIN) {
        differences[count++] = LOKHAZIM_KIND_DIFFERS;
    }
    if (edition != LOKHAZIM_EDITION_1) {
        differences[count++] = LOKHAZIM_EDITION_DIFFERS;
    }
    for (size_t n = 0; n <= count; n++) {
        const struct lokhazim_compare_reply reply = lokhazim_image_compare(image, length, changed, length, n);
        CHECK(reply.refusal == 0 && reply.kind == differences[n] && reply.place == 0 && reply.length == 0);
        next = lokhazim_image_compare_next(image, length, changed, length, next.part, next.at);
        CHECK(next.kind == differences[n] && next.place == 0 && next.length == 0);
    }
    CHECK(lokhazim_image_move_down(changed, length, image, sizeof image).refusal == LOKHAZIM_IMAGE_NOT_CARRIED);
}

/* A board that starts: the accounts become the image's, or zeros; a refused image leaves the heap. */
static void resume(size_t length)
{
    struct lokhazim_accounts zeros;
    memset(&zeros, 0, sizeof zeros);
    memset(&back, 5, sizeof back);
    CHECK(lokhazim_heap_resume(&second, image, length - 512) == LOKHAZIM_IMAGE_FRAME);
    CHECK(other[0] == 9 && other[sizeof other - 1] == 9 && same(&zeros, &back));
    CHECK(lokhazim_heap_resume(&second, image, length) == LOKHAZIM_ACCEPTED);
    CHECK(memcmp(memory, other, sizeof memory) == 0 && same(&accounts, &back));
}

int main(void)
{
    const struct lokhazim_heap mixed_up = { memory, sizeof memory, &back };
    const struct lokhazim_heap shorter = { other, sizeof other - 8, &back };
    size_t length = 1;
    memset(&back, 0, sizeof back);
    fill();
    memset(image, 7, sizeof image);

    CHECK(lokhazim_image_length(sizeof memory) == LOKHAZIM_IMAGE_MAX && lokhazim_image_length(65) == 0);
    CHECK(lokhazim_heap_save(&heap, image, LOKHAZIM_IMAGE_MAX - 1, &length) == LOKHAZIM_IMAGE_ROOM);
    CHECK(length == 0 && image[0] == 7);
    CHECK(lokhazim_heap_save(&mixed_up, image, sizeof image, NULL) == LOKHAZIM_INCONSISTENT);
    CHECK(lokhazim_heap_save(&heap, image, sizeof image, &length) == LOKHAZIM_ACCEPTED);
    CHECK(length == LOKHAZIM_IMAGE_MAX && image[length] == 7);

    CHECK(lokhazim_heap_restore(&second, image, length) == LOKHAZIM_ACCEPTED);
    CHECK(memcmp(memory, other, sizeof memory) == 0 && same(&accounts, &back));
    CHECK(lokhazim_heap_check(&second) == LOKHAZIM_ACCEPTED);

    image[600] ^= 1;
    memset(other, 9, sizeof other);
    CHECK(lokhazim_heap_restore(&second, image, length) == LOKHAZIM_IMAGE_FRAME);
    CHECK(lokhazim_heap_restore(&second, image, length + 1) == LOKHAZIM_IMAGE_LENGTH);
    image[600] ^= 1;
    CHECK(lokhazim_heap_restore(&shorter, image, length) == LOKHAZIM_IMAGE_ROOM);
    CHECK(other[0] == 9 && other[sizeof other - 1] == 9 && same(&accounts, &back));
    resume(length);
    compare();
    not_compared();
    form_1();
    moves();
    marked(LOKHAZIM_QUARANTINE, LOKHAZIM_EDITION_1);
    marked(LOKHAZIM_PLAIN, LOKHAZIM_EDITION_2);
    marked(LOKHAZIM_QUARANTINE, LOKHAZIM_EDITION_2);
    return EXIT_SUCCESS;
}
