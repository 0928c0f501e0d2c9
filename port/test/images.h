/*
 * Images and packet queues in the run of cross.c. The state is saved in one of the two forms, the image may be harmed, and it is read into the second state;
 * a handle is sent, and one received. Each answer and every byte goes into the sums.
 */
#include "lokhazim_image.h"
#include "lokhazim_queue.h"

/* Bytes of a frame, and of the stream in it; the longest head of an image; the longest image of a heap of HEAP bytes. */
enum { FRAME = 512, CARRIED = 504, HEAD = 4492, IMAGE = FRAME * ((HEAD + HEAP + CARRIED - 1) / CARRIED) };

static uint8_t image[IMAGE];
static struct lokhazim_queue queue;

static void mix_bytes(const uint8_t *bytes, size_t count)
{
    for (size_t i = 0; i < count; i++) {
        mix(bytes[i]);
    }
}

/* A refusal of images, 21 to 28, or of queues, 51 to 53, is noted by a bit. */
static uint32_t noted(uint32_t refusal)
{
    if (refusal > 20) {
        outcome.others |= 1u << (refusal > 50 ? refusal - 51 + 8 : refusal - 21);
    }
    mix(refusal);
    return refusal;
}

/* The check of the frame at a place is made right. */
static void check_frame(size_t at)
{
    uint32_t sum = 0;
    for (size_t i = 0; i < FRAME - 4; i++) {
        sum += (uint32_t)image[at + i] << 8 * (i % 4);
    }
    for (size_t i = 0; i < 4; i++) {
        image[at + FRAME - 4 + i] = (uint8_t)(sum >> 8 * i);
    }
}

/* Harms the image: any byte, or a byte of the stream in a frame whose check is made right again, or the length. Gives the length. */
static size_t harm_image(size_t bytes)
{
    const uint8_t bit = (uint8_t)(1u << any(8));
    size_t at = any((uint32_t)bytes);
    switch (any(4)) {
    case 0:
        return at;
    case 1:
        image[at] ^= bit;
        return bytes;
    case 2:
        at = any(16);
        break;
    default:
        at = at % FRAME;
        at += FRAME * (size_t)any((uint32_t)bytes / FRAME);
        break;
    }
    image[at] ^= bit;
    check_frame(at / FRAME * FRAME);
    return bytes;
}

/* Saves the state, and gives the image's length. */
static size_t save(void)
{
    const size_t room = any(8) ? IMAGE : any(IMAGE);
    const struct lokhazim_heap heap = { state.bytes, length, &state.accounts };
    size_t bytes = 0;
    if (any(2)) {
        noted(lokhazim_heap_save(&heap, image, room, &bytes));
    } else {
        noted(lokhazim_heap_save_form_1(&heap, image, room, &bytes));
    }
    mix((uint32_t)bytes);
    mix_bytes(image, IMAGE);
    return bytes;
}

/* Reads the image into the second state, by a resume or, where there is room for it on the stack, a restore, which leaves the accounts where it is refused. */
static void read_image(size_t bytes)
{
    static const struct lokhazim_accounts none;
    const size_t room = any(8) ? length : length + 8 - 16 * (size_t)any(2);
    const uint32_t restored = any(2) && RESTORE;
    const struct lokhazim_heap heap = { saved.bytes, room < HEAP ? room : HEAP, &saved.accounts };
    const struct lokhazim_examine_reply reply = lokhazim_image_examine(image, bytes);
    uint32_t refusal;
    noted(reply.refusal);
    mix(reply.form);
    mix((uint32_t)reply.heap_length);
    saved = state;
    if (restored) {
        refusal = lokhazim_heap_restore(&heap, image, bytes);
    } else {
        refusal = lokhazim_heap_resume(&heap, image, bytes);
    }
    if (noted(refusal) == LOKHAZIM_ACCEPTED) {
        state = saved;
    } else if (restored) {
        saved.accounts = none;
    }
    mix_bytes(saved.bytes, HEAP);
    mix_accounts(&saved.accounts);
}

static void image_step(void)
{
    const size_t bytes = save();
    if (bytes > 0) {
        read_image(any(2) ? bytes : harm_image(bytes));
    }
}

/* Sends a handle and receives one; at times the queue is another one, or harmed. */
static void queue_step(void)
{
    const struct lokhazim_heap heap = { state.bytes, length, &state.accounts };
    struct lokhazim_handle handle = { 0, 0, 0 };
    if (any(16) == 0) {
        const uint32_t sender = any(6), receiver = any(6);
        queue = lokhazim_queue_new(sender, receiver);
    }
    if (any(32) == 0) {
        queue.count = any(20);
    }
    noted(lokhazim_queue_send(&heap, &queue, handles[any(HANDLES)]));
    if (any(3) == 0) {
        noted(lokhazim_queue_receive(&queue, &handle));
    }
    mix(handle.base);
    mix(handle.length);
    mix(handle.serial);
    mix(queue.count);
    for (int i = 0; i < LOKHAZIM_QUEUE_PLACES; i++) {
        mix(queue.handles[i].base);
        mix(queue.handles[i].serial);
    }
    mix_state();
}
