/*
 * Lokhazim: settings with versions. A store is a lent buffer whose first used bytes are entries,
 * one behind the other: the version (2 bytes, the lower one first), the name's number (1), the
 * value's length (1, at most 64), the value. Versions never fall. Bytes behind the used ones mean
 * nothing. Settings need no heap.
 *
 * The value of a name at a version is that of the last entry of that name whose version is not
 * above it, in the board's store, else in the defaults:
 *
 *     const uint8_t *value;
 *     size_t length;
 *     if (lokhazim_settings_find(board, sizeof board, used, defaults, sizeof defaults,
 *                                sizeof defaults, NAME, VERSION, &value, &length)) {
 *         ... there is none ...
 *     }
 *
 * The functions keep no pointer and take any bytes. A value that is added does not overlap the
 * store.
 */
#ifndef LOKHAZIM_SETTINGS_H
#define LOKHAZIM_SETTINGS_H

#include "lokhazim.h"

/* The greatest length of a value, and how many bytes of an entry stand before it. */
#define LOKHAZIM_SETTINGS_VALUE_MAX 64
#define LOKHAZIM_SETTINGS_FRONT 4

/* An entry: `there` is 1 where there is one, 0 behind the last and where it is refused. Its value
 * is the bytes of the store from `start` to before `end`. */
struct lokhazim_entry_reply {
    uint32_t refusal;
    uint32_t there;
    uint16_t version;
    uint8_t name;
    size_t start;
    size_t end;
};

/* The library's own structs and functions. A value lies in store LOKHAZIM_SETTINGS_BOARD or
 * LOKHAZIM_SETTINGS_DEFAULTS, or nowhere. */
enum lokhazim_settings_store {
    LOKHAZIM_SETTINGS_NOWHERE = 0,
    LOKHAZIM_SETTINGS_BOARD = 1,
    LOKHAZIM_SETTINGS_DEFAULTS = 2
};
struct lokhazim_find_reply {
    uint32_t refusal;
    uint32_t store;
    size_t start;
    size_t end;
};
struct lokhazim_add_reply {
    uint32_t refusal;
    size_t used;
};

LOKHAZIM_LAYOUT(lokhazim_entry_reply, 8 + 3 * sizeof(size_t), end, 8 + 2 * sizeof(size_t));
LOKHAZIM_LAYOUT(lokhazim_find_reply, 8 + 2 * sizeof(size_t), end, 8 + sizeof(size_t));
LOKHAZIM_LAYOUT(lokhazim_add_reply, 2 * sizeof(size_t), used, sizeof(size_t));

LOKHAZIM_API struct lokhazim_find_reply lokhazim_raw_settings_find(const uint8_t *board,
    size_t board_length, size_t board_used, const uint8_t *defaults, size_t defaults_length,
    size_t defaults_used, uint8_t name, uint16_t version);
LOKHAZIM_API struct lokhazim_add_reply lokhazim_raw_settings_add(uint8_t *store, size_t length,
    size_t used, uint8_t name, uint16_t version, const uint8_t *value, size_t value_length);
LOKHAZIM_API struct lokhazim_entry_reply lokhazim_raw_settings_entry(const uint8_t *store,
    size_t length, size_t used, size_t n);

/* Gives the value of a name at a version as the bytes where they lie, in `board` or in `defaults`:
 * *value becomes their address and *value_length their number, which can be 0. Where it is refused,
 * they become NULL and 0. Refusals 100, 41 of either store, 42. */
LOKHAZIM_CALL lokhazim_settings_find(const uint8_t *board, size_t board_length, size_t board_used,
    const uint8_t *defaults, size_t defaults_length, size_t defaults_used, uint8_t name,
    uint16_t version, const uint8_t **value, size_t *value_length)
{
    struct lokhazim_find_reply reply = { LOKHAZIM_BAD_POINTER, LOKHAZIM_SETTINGS_NOWHERE, 0, 0 };
    if (board && defaults && value && value_length) {
        reply = lokhazim_raw_settings_find(board, board_length, board_used, defaults,
                                           defaults_length, defaults_used, name, version);
    }
    if (value) {
        *value = reply.store == LOKHAZIM_SETTINGS_BOARD      ? board + reply.start
               : reply.store == LOKHAZIM_SETTINGS_DEFAULTS ? defaults + reply.start
                                                           : NULL;
    }
    if (value_length) {
        *value_length = reply.end - reply.start;
    }
    return (enum lokhazim_refusal)reply.refusal;
}

/* Writes an entry behind the *used bytes of a store, and *used becomes the new used length; other
 * bytes stay. Where it is refused, all stay. Refusals 100, 41, 43, 44, 45. */
LOKHAZIM_CALL lokhazim_settings_add(uint8_t *store, size_t length, size_t *used, uint8_t name,
    uint16_t version, const uint8_t *value, size_t value_length)
{
    struct lokhazim_add_reply reply = { LOKHAZIM_BAD_POINTER, 0 };
    if (store && used && value) {
        reply = lokhazim_raw_settings_add(
            store, length, *used, name, version, value, value_length);
    }
    if (reply.refusal == LOKHAZIM_ACCEPTED) {
        *used = reply.used;
    }
    return (enum lokhazim_refusal)reply.refusal;
}

/* Tells the n-th entry of a store in *entry, from 0. The whole store is read: refusal 41 where any
 * entry is malformed. Refusals 100, 41. */
LOKHAZIM_CALL lokhazim_settings_entry(const uint8_t *store, size_t length, size_t used, size_t n,
    struct lokhazim_entry_reply *entry)
{
    struct lokhazim_entry_reply reply = { LOKHAZIM_BAD_POINTER, 0, 0, 0, 0, 0 };
    if (store && entry) {
        reply = lokhazim_raw_settings_entry(store, length, used, n);
    }
    if (entry) {
        *entry = reply;
    }
    return (enum lokhazim_refusal)reply.refusal;
}

#endif
