/* The functions of lokhazim_image.h, over those of the proved module (port/core.h). Only arguments and answers are handed on. */
#include "core.h"
#include "lokhazim_image.h"

struct core_compared {
    _Alignas(8) uint32_t refusal;
    uint32_t which;
    uint32_t kind;
    _Alignas(8) uint64_t place;
    _Alignas(8) uint64_t length;
};

struct core_next {
    _Alignas(8) uint32_t refusal;
    uint32_t which;
    uint32_t kind;
    _Alignas(8) uint64_t place;
    _Alignas(8) uint64_t length;
    uint32_t part;
    _Alignas(8) uint64_t at;
};

struct core_examined {
    _Alignas(8) uint32_t refusal;
    uint32_t form;
    _Alignas(8) uint64_t heap_length;
};

LOKHAZIM_ASSERT(sizeof(struct core_examined) == 16 && offsetof(struct core_examined, form) == 4 && offsetof(struct core_examined, heap_length) == 8,
                "a reply is not as the module has it");

LOKHAZIM_ASSERT(sizeof(struct core_compared) == 32 && offsetof(struct core_compared, place) == 16 && offsetof(struct core_compared, length) == 24,
                "a reply is not as the module has it");
LOKHAZIM_ASSERT(sizeof(struct core_next) == 48 && offsetof(struct core_next, part) == 32 && offsetof(struct core_next, at) == 40,
                "a reply is not as the module has it");

static struct lokhazim_image_reply written_of(const struct core_written *core)
{
    const struct lokhazim_image_reply reply = { core->refusal, (size_t)core->length };
    return reply;
}

uint64_t lokhazim_core_image_length(uint64_t);
size_t lokhazim_image_length(size_t heap_length)
{
    return (size_t)lokhazim_core_image_length(heap_length);
}

uint64_t lokhazim_core_image_length_form_1(uint64_t);
size_t lokhazim_image_length_form_1(size_t heap_length)
{
    return (size_t)lokhazim_core_image_length_form_1(heap_length);
}

void lokhazim_core_raw_image_write(struct core_written *, const uint8_t *, uint64_t, const uint8_t *, uint64_t, const struct lokhazim_accounts *);
struct lokhazim_image_reply lokhazim_raw_image_write(
    uint8_t *image, size_t image_length, const uint8_t *heap, size_t length, const struct lokhazim_accounts *accounts)
{
    struct core_written reply;
    lokhazim_core_raw_image_write(&reply, image, image_length, heap, length, accounts);
    return written_of(&reply);
}

void lokhazim_core_raw_image_write_form_1(struct core_written *, const uint8_t *, uint64_t, const uint8_t *, uint64_t, const struct lokhazim_accounts *);
struct lokhazim_image_reply lokhazim_raw_image_write_form_1(
    uint8_t *image, size_t image_length, const uint8_t *heap, size_t length, const struct lokhazim_accounts *accounts)
{
    struct core_written reply;
    lokhazim_core_raw_image_write_form_1(&reply, image, image_length, heap, length, accounts);
    return written_of(&reply);
}

uint32_t lokhazim_core_raw_image_resume(const uint8_t *, uint64_t, const uint8_t *, uint64_t, struct lokhazim_accounts *);
uint32_t lokhazim_raw_image_resume(
    const uint8_t *image, size_t image_length, uint8_t *heap, size_t length, struct lokhazim_accounts *accounts)
{
    return lokhazim_core_raw_image_resume(image, image_length, heap, length, accounts);
}

uint32_t lokhazim_core_raw_image_restore(const uint8_t *, uint64_t, const uint8_t *, uint64_t, struct lokhazim_accounts *);
uint32_t lokhazim_raw_image_restore(
    const uint8_t *image, size_t image_length, uint8_t *heap, size_t length, struct lokhazim_accounts *accounts)
{
    return lokhazim_core_raw_image_restore(image, image_length, heap, length, accounts);
}

void lokhazim_core_image_examine(struct core_examined *, const uint8_t *, uint64_t);
struct lokhazim_examine_reply lokhazim_image_examine(const uint8_t *image, size_t image_length)
{
    struct core_examined core;
    lokhazim_core_image_examine(&core, image, image_length);
    const struct lokhazim_examine_reply reply = { core.refusal, core.form, (size_t)core.heap_length };
    return reply;
}

void lokhazim_core_image_move_up(struct core_written *, const uint8_t *, uint64_t, const uint8_t *, uint64_t);
struct lokhazim_image_reply lokhazim_image_move_up(const uint8_t *image, size_t image_length, uint8_t *out, size_t out_length)
{
    struct core_written reply;
    lokhazim_core_image_move_up(&reply, image, image_length, out, out_length);
    return written_of(&reply);
}

void lokhazim_core_image_move_down(struct core_written *, const uint8_t *, uint64_t, const uint8_t *, uint64_t);
struct lokhazim_image_reply lokhazim_image_move_down(const uint8_t *image, size_t image_length, uint8_t *out, size_t out_length)
{
    struct core_written reply;
    lokhazim_core_image_move_down(&reply, image, image_length, out, out_length);
    return written_of(&reply);
}

void lokhazim_core_image_compare(struct core_compared *, const uint8_t *, uint64_t, const uint8_t *, uint64_t, uint64_t);
struct lokhazim_compare_reply lokhazim_image_compare(
    const uint8_t *first, size_t first_length, const uint8_t *second, size_t second_length, size_t n)
{
    struct core_compared core;
    lokhazim_core_image_compare(&core, first, first_length, second, second_length, n);
    const struct lokhazim_compare_reply reply = { core.refusal, core.which, core.kind, (size_t)core.place, (size_t)core.length };
    return reply;
}

void lokhazim_core_image_compare_next(struct core_next *, const uint8_t *, uint64_t, const uint8_t *, uint64_t, uint32_t, uint64_t);
struct lokhazim_next_reply lokhazim_image_compare_next(
    const uint8_t *first, size_t first_length, const uint8_t *second, size_t second_length, uint32_t part, size_t at)
{
    struct core_next core;
    lokhazim_core_image_compare_next(&core, first, first_length, second, second_length, part, at);
    const struct lokhazim_next_reply reply = {
        core.refusal, core.which, core.kind, (size_t)core.place, (size_t)core.length, core.part, (size_t)core.at
    };
    return reply;
}
