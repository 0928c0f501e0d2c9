/*
 * Prints the bytes of accounts and of a handle, and the stack that each call has used: 'call_NAME BYTES'.
 *
 * Each call is made once, on a stack of its own that was painted before; what has lost its paint was used.
 * A call_NAME does nothing but call the function of lokhazim.h, lokhazim_image.h or lokhazim_queue.h, so that the copies which that
 * function makes are counted too.
 */
#define _XOPEN_SOURCE 700
#include "lokhazim_image.h"
#include "lokhazim_queue.h"

#include <stdio.h>
#include <stdlib.h>
#include <string.h>
#include <ucontext.h>

#define PAINT 0xA5
#define OBJECTS 24

static _Alignas(LOKHAZIM_ALIGNMENT) uint8_t memory[4096];
static struct lokhazim_accounts accounts;
static const struct lokhazim_heap heap = { memory, sizeof memory, &accounts };
static enum lokhazim_kind kind = LOKHAZIM_PLAIN;
static const struct lokhazim_grants grants = { { 4000, 4000 } };
static struct lokhazim_handle objects[OBJECTS];
static struct lokhazim_handle middle;
static struct lokhazim_handle given;
static struct lokhazim_block_reply block;
static uint8_t *object;
static uint32_t amount;
static enum lokhazim_refusal refusal;

/* Defines call_NAME, a function of its own that makes one call. */
#define CALL(name, ...)                                                             \
    void call_##name(void);                                                         \
    __attribute__((noinline)) void call_##name(void)                                \
    {                                                                               \
        refusal = lokhazim_heap_##name(&heap, __VA_ARGS__);                         \
    }

CALL(open, grants, kind, LOKHAZIM_EDITION_1)
CALL(allocate, 0, 40, &given)
CALL(allocate_array, 0, 5, 8, &given)
CALL(claim, 1, middle, &amount)
CALL(release, 0, middle, &amount)
CALL(free_all, 0, &amount)
CALL(clear_permissions, 1, LOKHAZIM_MAY_CLAIM, &amount)
CALL(reallocate, 0, middle, 40, &given)
CALL(lend, middle, &object)
CALL(write, middle, 1, 2)
CALL(remaining, 0, &amount)
CALL(can_release, 0, middle)
CALL(list_block, 0, &block)
CALL(sweep, &amount)

void call_check(void);
__attribute__((noinline)) void call_check(void)
{
    refusal = lokhazim_heap_check(&heap);
}

static uint8_t image[LOKHAZIM_IMAGE_MAX];
static size_t image_length;

void call_save(void);
__attribute__((noinline)) void call_save(void)
{
    refusal = lokhazim_heap_save(&heap, image, sizeof image, &image_length);
}

void call_restore(void);
__attribute__((noinline)) void call_restore(void)
{
    refusal = lokhazim_heap_restore(&heap, image, image_length);
}

void call_resume(void);
__attribute__((noinline)) void call_resume(void)
{
    refusal = lokhazim_heap_resume(&heap, image, image_length);
}

void call_examine(void);
__attribute__((noinline)) void call_examine(void)
{
    refusal = (enum lokhazim_refusal)lokhazim_image_examine(image, image_length).refusal;
}

static uint8_t first_form[LOKHAZIM_IMAGE_MAX_FORM_1];
static size_t first_length;

void call_move_down(void);
__attribute__((noinline)) void call_move_down(void)
{
    const struct lokhazim_image_reply reply = lokhazim_image_move_down(image, image_length, first_form, sizeof first_form);
    refusal = (enum lokhazim_refusal)reply.refusal;
    first_length = reply.length;
}

void call_move_up(void);
__attribute__((noinline)) void call_move_up(void)
{
    refusal = (enum lokhazim_refusal)lokhazim_image_move_up(first_form, first_length, image, sizeof image).refusal;
}

static struct lokhazim_queue queue;

void call_send(void);
__attribute__((noinline)) void call_send(void)
{
    refusal = lokhazim_queue_send(&heap, &queue, middle);
}

void call_receive(void);
__attribute__((noinline)) void call_receive(void)
{
    refusal = lokhazim_queue_receive(&queue, &given);
}

static void expect_accepted(const char *name)
{
    if (refusal != LOKHAZIM_ACCEPTED) {
        fprintf(stderr, "FAILED: %s was refused by %d.\n", name, (int)refusal);
        exit(EXIT_FAILURE);
    }
}

/* A heap with objects and gaps, in which the object in the middle has free or quarantined blocks on both sides. */
static void prepare(void)
{
    call_open();
    for (int i = 0; i < OBJECTS; i++) {
        call_allocate();
        expect_accepted("allocate");
        objects[i] = given;
    }
    for (int i = 1; i < OBJECTS; i += 2) {
        middle = objects[i];
        call_release();
        expect_accepted("release");
    }
    middle = objects[OBJECTS / 2];
    call_save();
    expect_accepted("save");
    if (kind == LOKHAZIM_PLAIN) {
        call_move_down();
        expect_accepted("move down");
    }
    queue = lokhazim_queue_new(0, 1);
    queue.count = 1;
}

static _Alignas(64) unsigned char stack[131072];

/* The stack pointer when a function begins on that stack: at its return address. */
static unsigned char *beginning;

static void note_beginning(void)
{
    beginning = (unsigned char *)__builtin_frame_address(0) + sizeof(void *);
}

/* Paints the stack, runs a function on it, and finds the lowest byte that it has written. */
static unsigned char *lowest_written(void (*function)(void))
{
    static ucontext_t here, there;
    unsigned char *byte = stack;
    memset(stack, PAINT, sizeof stack);
    getcontext(&there);
    there.uc_stack.ss_sp = stack;
    there.uc_stack.ss_size = sizeof stack;
    there.uc_link = &here;
    makecontext(&there, function, 0);
    swapcontext(&here, &there);
    while (*byte == PAINT) {
        byte++;
    }
    return byte;
}

static void measure(const char *name, void (*function)(void))
{
    prepare();
    lowest_written(note_beginning);
    const unsigned char *lowest = lowest_written(function);
    expect_accepted(name);
    printf("%s %td\n", name, beginning - lowest);
}

#define MEASURE(name) measure("call_" #name, call_##name)

int main(void)
{
    printf("accounts %zu\n", sizeof accounts);
    printf("handle %zu\n", sizeof given);
    MEASURE(open);
    MEASURE(allocate);
    MEASURE(allocate_array);
    MEASURE(claim);
    MEASURE(release);
    MEASURE(free_all);
    MEASURE(clear_permissions);
    MEASURE(reallocate);
    MEASURE(lend);
    MEASURE(write);
    MEASURE(remaining);
    MEASURE(can_release);
    MEASURE(list_block);
    MEASURE(check);
    MEASURE(save);
    MEASURE(restore);
    MEASURE(resume);
    MEASURE(examine);
    MEASURE(move_down);
    MEASURE(move_up);
    MEASURE(send);
    MEASURE(receive);
    kind = LOKHAZIM_QUARANTINE;
    MEASURE(sweep);
    return EXIT_SUCCESS;
}
