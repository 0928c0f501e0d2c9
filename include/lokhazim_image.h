/*
 * Lokhazim: images. An image is a heap with its accounts as bytes that can be kept, sent and read
 * back on another board: frames of 512 bytes, each with its number and a check.
 *
 * There are two forms. Form 2 carries every state; it is what is written. Form 1 is that of earlier
 * versions, with LOKHAZIM_FORM_1_QUOTAS quotas, LOKHAZIM_FORM_1_HOLDS hold records, no permissions
 * and plain heaps of edition 1 alone; it is written for boards that read nothing else. Both are
 * read, by the number that they begin with.
 *
 * The functions keep no pointer and take any bytes. Saving, resuming and restoring need no more
 * stack than any other call (docs/FIGURES.md), but restoring has second accounts there. Moving and
 * comparing need some tens of kilobytes. Image, heap and accounts don't overlap. The functions on
 * images alone, lokhazim_image_..., are the library's: their pointers are not null.
 */
#ifndef LOKHAZIM_IMAGE_H
#define LOKHAZIM_IMAGE_H

#include "lokhazim.h"

/* The length of the longest image in form 2 and in form 1, those of a heap of LOKHAZIM_HEAP_MAX
 * bytes. */
#define LOKHAZIM_IMAGE_MAX 37888
#define LOKHAZIM_IMAGE_MAX_FORM_1 34816

/* The bytes in front of the heap's, in form 2 and in form 1, before they are cut into frames. */
#define LOKHAZIM_IMAGE_HEAD 4492
#define LOKHAZIM_IMAGE_HEAD_FORM_1 1100

/* The quotas and hold records that form 1 has; form 2 has all. */
#define LOKHAZIM_FORM_1_QUOTAS 8
#define LOKHAZIM_FORM_1_HOLDS 128

LOKHAZIM_ASSERT(LOKHAZIM_IMAGE_HEAD == 12 + 12 * LOKHAZIM_QUOTAS + 8 * LOKHAZIM_HOLDS,
                "the head of form 2 has all quotas and records");
LOKHAZIM_ASSERT(LOKHAZIM_IMAGE_HEAD_FORM_1
                    == 12 + 8 * LOKHAZIM_FORM_1_QUOTAS + 8 * LOKHAZIM_FORM_1_HOLDS,
                "the head of form 1 has its quotas and records");

/* What differs between two images. */
enum lokhazim_difference {
    LOKHAZIM_NO_DIFFERENCE = 0,   /* nothing more */
    LOKHAZIM_SERIAL_DIFFERS = 1,  /* the last serial */
    LOKHAZIM_QUOTA_DIFFERS = 2,   /* grant, remainder or permissions of the quota `place` */
    LOKHAZIM_RECORD_DIFFERS = 3,  /* the hold record at `place` */
    LOKHAZIM_BYTES_DIFFER = 4,    /* `length` heap bytes from offset `place` on */
    LOKHAZIM_KIND_DIFFERS = 5,    /* the kind of the heap; listed right behind the last serial */
    LOKHAZIM_EDITION_DIFFERS = 6  /* the edition of the heap; listed right behind the kind */
};

/* The reply of writing or moving an image; length is 0 where it is refused. */
struct lokhazim_image_reply {
    uint32_t refusal;
    size_t length;
};

/* The reply of examining an image; all zero but the refusal where it is refused. */
struct lokhazim_examine_reply {
    uint32_t refusal;
    uint32_t form;
    size_t heap_length;
};

/* The reply of comparing: the image that a refusal is about, 1 or 2, 0 for both together; or a
 * difference by its kind, an enum lokhazim_difference. */
struct lokhazim_compare_reply {
    uint32_t refusal;
    uint32_t which;
    uint32_t kind;
    size_t place;
    size_t length;
};

/* The reply of the next difference, with the position behind it; the others as of comparing. */
struct lokhazim_next_reply {
    uint32_t refusal;
    uint32_t which;
    uint32_t kind;
    size_t place;
    size_t length;
    uint32_t part;
    size_t at;
};

LOKHAZIM_LAYOUT(lokhazim_image_reply, 2 * sizeof(size_t), length, sizeof(size_t));
LOKHAZIM_LAYOUT(lokhazim_examine_reply, 8 + sizeof(size_t), heap_length, 8);
LOKHAZIM_LAYOUT(lokhazim_compare_reply, 8 + 3 * sizeof(size_t), length, 8 + 2 * sizeof(size_t));
LOKHAZIM_LAYOUT(lokhazim_next_reply, 8 + 5 * sizeof(size_t), at, 8 + 4 * sizeof(size_t));

/* ---- Images alone ---- */

/* The length of the image of a heap of so many bytes, in form 2 and in form 1; 0 for a length that
 * no heap can have. */
LOKHAZIM_API LOKHAZIM_NODISCARD size_t lokhazim_image_length(size_t heap_length);
LOKHAZIM_API LOKHAZIM_NODISCARD size_t lokhazim_image_length_form_1(size_t heap_length);

/* Tells the image's form and the length of the heap in it. Whether heap and accounts agree is told
 * by reading. Refusals 21 to 24. */
LOKHAZIM_API LOKHAZIM_NODISCARD struct lokhazim_examine_reply lokhazim_image_examine(
    const uint8_t *image, size_t image_length);

/* Writes the image in form 2 of the state in an image of form 1 to the front of `out`; bytes behind
 * it stay, and all of them where it is refused. image and out don't overlap. Refusals 21 to 24 (23
 * also for form 2), 26, 25. An image that can be read is always moved if `out` has
 * lokhazim_image_length of its heap's length. */
LOKHAZIM_API LOKHAZIM_NODISCARD struct lokhazim_image_reply lokhazim_image_move_up(
    const uint8_t *image, size_t image_length, uint8_t *out, size_t out_length);

/* Writes the image in form 1 of the state in an image of form 2, as above. Refusals 21 to 24 (23
 * also for form 1), 26, 28, 25. Up and then down gives the same bytes, and so does down and then
 * up. */
LOKHAZIM_API LOKHAZIM_NODISCARD struct lokhazim_image_reply lokhazim_image_move_down(
    const uint8_t *image, size_t image_length, uint8_t *out, size_t out_length);

/* Tells the n-th difference of two images, from 0, in this order: last serial, kind, edition,
 * quotas, records, runs of heap bytes. Refusals 21 to 24 and 26 of either image, the first one's
 * before the second's, then 29, 27. */
LOKHAZIM_API LOKHAZIM_NODISCARD struct lokhazim_compare_reply lokhazim_image_compare(
    const uint8_t *first, size_t first_length, const uint8_t *second, size_t second_length,
    size_t n);

/* Tells the first difference from a position on, which begins as part 0, at 0, and goes on with the
 * reply's: asked so, it lists what lokhazim_image_compare lists. Both images are checked at each
 * call. Refusals as of lokhazim_image_compare. */
LOKHAZIM_API LOKHAZIM_NODISCARD struct lokhazim_next_reply lokhazim_image_compare_next(
    const uint8_t *first, size_t first_length, const uint8_t *second, size_t second_length,
    uint32_t part, size_t at);

/* ---- The library's own functions ---- */

LOKHAZIM_API struct lokhazim_image_reply lokhazim_raw_image_write(uint8_t *image,
    size_t image_length, const uint8_t *heap, size_t length,
    const struct lokhazim_accounts *accounts);
LOKHAZIM_API struct lokhazim_image_reply lokhazim_raw_image_write_form_1(uint8_t *image,
    size_t image_length, const uint8_t *heap, size_t length,
    const struct lokhazim_accounts *accounts);
LOKHAZIM_API uint32_t lokhazim_raw_image_resume(const uint8_t *image, size_t image_length,
    uint8_t *heap, size_t length, struct lokhazim_accounts *accounts);
LOKHAZIM_API uint32_t lokhazim_raw_image_restore(const uint8_t *image, size_t image_length,
    uint8_t *heap, size_t length, struct lokhazim_accounts *accounts);

/* ---- Images of a heap; each gives its refusal ---- */

/* Writes an image of heap and accounts, in form 2, to the front of `image`; bytes behind it stay.
 * *written, if it is not null, becomes its length. Refusals 100, 1, 2, 25. */
LOKHAZIM_CALL lokhazim_heap_save(const struct lokhazim_heap *heap, uint8_t *image,
    size_t image_length, size_t *written)
{
    struct lokhazim_image_reply reply = { LOKHAZIM_BAD_POINTER, 0 };
    if (image && lokhazim_own_usable(heap)) {
        reply = lokhazim_raw_image_write(
            image, image_length, heap->bytes, heap->length, heap->accounts);
    }
    if (written) {
        *written = reply.length;
    }
    return (enum lokhazim_refusal)reply.refusal;
}

/* The same in form 1, for boards that read nothing else. Refusals 100, 1, 2, 28, 25. */
LOKHAZIM_CALL lokhazim_heap_save_form_1(const struct lokhazim_heap *heap, uint8_t *image,
    size_t image_length, size_t *written)
{
    struct lokhazim_image_reply reply = { LOKHAZIM_BAD_POINTER, 0 };
    if (image && lokhazim_own_usable(heap)) {
        reply = lokhazim_raw_image_write_form_1(
            image, image_length, heap->bytes, heap->length, heap->accounts);
    }
    if (written) {
        *written = reply.length;
    }
    return (enum lokhazim_refusal)reply.refusal;
}

/* Resumes from an image of either form: for a board that starts, whose accounts hold nothing yet.
 * Form 1 gives all permissions to every quota, and a plain heap of edition 1. Refused by 21 to 26,
 * it leaves the heap and sets the accounts to zero; then open the heap. Handles from before the
 * image are good again. Drop every handle that was given out after it: serials are given again, so
 * such a handle may name another part's object, and no call can tell. Refusals 100, 21 to 26. */
LOKHAZIM_CALL lokhazim_heap_resume(const struct lokhazim_heap *heap, const uint8_t *image,
    size_t image_length)
{
    return image && lokhazim_own_usable(heap)
        ? (enum lokhazim_refusal)lokhazim_raw_image_resume(
              image, image_length, heap->bytes, heap->length, heap->accounts)
        : LOKHAZIM_BAD_POINTER;
}

/* The same into a heap in use: where it is refused, heap and accounts stay, every byte, and calls
 * go on with them. It has second accounts on the stack for this. Refusals 100, 21 to 26. */
LOKHAZIM_CALL lokhazim_heap_restore(const struct lokhazim_heap *heap, const uint8_t *image,
    size_t image_length)
{
    return image && lokhazim_own_usable(heap)
        ? (enum lokhazim_refusal)lokhazim_raw_image_restore(
              image, image_length, heap->bytes, heap->length, heap->accounts)
        : LOKHAZIM_BAD_POINTER;
}

#endif
