/*
 * Lokhazim: a heap that parts of a firmware share without trusting each other.
 *
 * Each part has a quota. A request's length is rounded up by the heap's edition of the rounding
 * table. An object costs its rounded length plus LOKHAZIM_HEADER. A part may hold an object that
 * another part made. Every call but open checks the whole heap and its accounts, on any bytes and
 * any numbers. A call answers, or gives a refusal and changes nothing; only a refused open sets
 * the accounts to zero.
 *
 *     static _Alignas(LOKHAZIM_ALIGNMENT) uint8_t bytes[4096];
 *     static struct lokhazim_accounts accounts;
 *     static const struct lokhazim_heap heap = { bytes, sizeof bytes, &accounts };
 *
 * Programs call the functions lokhazim_heap_... at the end of this file. Link liblokhazim.a, which
 * has the functions of all headers; with -Wl,--gc-sections it takes no byte for what is not called.
 *
 * The functions of the headers check the pointers that they are given: LOKHAZIM_BAD_POINTER says
 * that one is null, or that the heap is not aligned. What nobody can check is the caller's duty:
 *   - `bytes` points to `length` bytes that nobody else uses during a call.
 *   - Nobody else uses the accounts during a call. Accounts and answers lie outside of the bytes.
 *   - A quota's number is an argument, and lend and write ask for a handle only. One trusted place
 *     keeps heap and accounts, and fills in each part's number.
 *
 * It needs C11 or C++11, a little-endian machine, and memcpy, memmove and memset. It needs no
 * operating system, and of a compiler's headers <stddef.h> and <stdint.h> alone.
 */
#ifndef LOKHAZIM_H
#define LOKHAZIM_H

#ifdef __cplusplus
#if __cplusplus < 201103L
#error "lokhazim.h needs C++11 or newer: compile with -std=c++11"
#endif
#elif !defined(__STDC_VERSION__) || __STDC_VERSION__ < 201112L
#error "lokhazim.h needs C11 or newer: compile with -std=c11"
#endif

#include <stddef.h>
#include <stdint.h>

#if defined(__BYTE_ORDER__) && __BYTE_ORDER__ != __ORDER_LITTLE_ENDIAN__
#error "lokhazim is for little-endian machines"
#endif

/* Stops the compiler where a fact does not hold. */
#ifndef LOKHAZIM_ASSERT
#ifdef __cplusplus
#define LOKHAZIM_ASSERT(fact, text) static_assert(fact, text)
#else
#define LOKHAZIM_ASSERT(fact, text) _Static_assert(fact, text)
#endif
#endif

/* Stops the compiler where a struct does not lie in memory as the library has it: its size, and
 * where its last field begins. */
#define LOKHAZIM_LAYOUT(type, size, last, offset)                                               \
    LOKHAZIM_ASSERT(sizeof(struct type) == (size) && offsetof(struct type, last) == (offset),   \
                    "struct " #type " does not lie in memory as the library has it")

/* Has the compiler warn where the answer of a function is dropped. */
#if defined(__cplusplus) ? __cplusplus >= 201703L : __STDC_VERSION__ >= 202311L
#define LOKHAZIM_NODISCARD [[nodiscard]]
#elif defined(__GNUC__)
#define LOKHAZIM_NODISCARD __attribute__((warn_unused_result))
#else
#define LOKHAZIM_NODISCARD
#endif

/* A function that the library exports. */
#ifdef __cplusplus
#define LOKHAZIM_API extern "C"
#else
#define LOKHAZIM_API
#endif

/* A call of these headers: it gives its refusal, which a program has to look at. */
#define LOKHAZIM_CALL LOKHAZIM_NODISCARD static inline enum lokhazim_refusal

/* The number of this interface, one more with each change of a struct or of a function's
 * arguments. CHANGELOG.md says what programs change. */
#define LOKHAZIM_INTERFACE 7

/* The version of the library, as text and by its three numbers. */
#define LOKHAZIM_VERSION "0.7.0"
#define LOKHAZIM_VERSION_MAJOR 0
#define LOKHAZIM_VERSION_MINOR 7
#define LOKHAZIM_VERSION_PATCH 0

/* ---- Numbers ---- */

/* The number of quotas, which are numbered from 0, and of hold records. */
#define LOKHAZIM_QUOTAS 32
#define LOKHAZIM_HOLDS 512

/* What an object costs beyond its length: the bytes of its block's header. */
#define LOKHAZIM_HEADER 8

/* The address of a heap is a multiple of this, the greatest unit of an object that fits a heap. */
#define LOKHAZIM_ALIGNMENT 64

/* The shortest and the longest heap; a heap's length is a multiple of 8. */
#define LOKHAZIM_HEAP_MIN 64
#define LOKHAZIM_HEAP_MAX 32768

/* The most bytes that can be asked for. */
#define LOKHAZIM_REQUEST_MAX 32760

/* What a quota may do, as bits of its permissions. An opening sets all of them, an image that is
 * read sets those that it has, lokhazim_heap_clear_permissions clears some, and nothing else
 * changes them. Reallocate needs the first. Release needs none. */
#define LOKHAZIM_MAY_ALLOCATE 1
#define LOKHAZIM_MAY_CLAIM 2
#define LOKHAZIM_MAY_FREE_ALL 4
#define LOKHAZIM_MAY_ALL 7

/* The serial of a quarantined block, which no object has, and the last serial of an object. */
#define LOKHAZIM_QUARANTINED UINT32_MAX
#define LOKHAZIM_SERIAL_MAX (UINT32_MAX - 1)

/* The kinds of a heap, chosen at the opening. In a plain heap the block of an object that nobody
 * holds is free at once. In a heap with quarantine the object is cleared and its quotas have their
 * charges back, but no new object gets its bytes before lokhazim_heap_sweep. */
enum lokhazim_kind {
    LOKHAZIM_PLAIN = 0,
    LOKHAZIM_QUARANTINE = 1
};

/* The editions of the rounding table, chosen at the opening. A request gets an object of the next
 * multiple of its unit (itself, if it is one), at a base that is a multiple of the unit of that
 * length. The units, by length:
 *   unit              8         16         32         64        128
 *   edition 1  to 8,191  to 16,383  to 32,767      above
 *   edition 2  to 4,088   to 8,176  to 16,352  to 32,704      above
 * An object of 32,768 bytes fits no heap. So no request above 32,736 is accepted in edition 1, and
 * none above 32,704 in edition 2. */
enum lokhazim_edition {
    LOKHAZIM_EDITION_1 = 0,
    LOKHAZIM_EDITION_2 = 1
};

/* Why a call is refused: one list for all headers. lokhazim_refusal_text says what to do. Structs
 * have a refusal as uint32_t, since the size of an enum depends on the compiler.
 * The calls on a heap check in the order of the numbers 1 to 11, but 12 right after 3. */
enum lokhazim_refusal {
    LOKHAZIM_ACCEPTED = 0,               /* not refused */
    LOKHAZIM_HEAP_LENGTH = 1,            /* the heap's length is not allowed */
    LOKHAZIM_INCONSISTENT = 2,           /* heap and accounts don't agree (docs/RULES.md, 5) */
    LOKHAZIM_QUOTA_NUMBER = 3,           /* no quota has this number */
    LOKHAZIM_OBJECT_LENGTH = 4,          /* 0 bytes, or more than LOKHAZIM_REQUEST_MAX */
    LOKHAZIM_NO_SUCH_OBJECT = 5,         /* no live object; reallocate: not the whole object */
    LOKHAZIM_NOT_HELD = 6,               /* this quota doesn't hold the object */
    LOKHAZIM_COUNT_LIMIT = 7,            /* this quota holds the object 255 times, the most */
    LOKHAZIM_QUOTA_EXCEEDED = 8,         /* the charge is above what remains of the quota */
    LOKHAZIM_HOLDS_EXHAUSTED = 9,        /* all hold records are used */
    LOKHAZIM_SERIALS_EXHAUSTED = 10,     /* the last serial is LOKHAZIM_SERIAL_MAX */
    LOKHAZIM_NO_SPACE = 11,              /* no free run of bytes is long enough */
    LOKHAZIM_NOT_PERMITTED = 12,         /* the quota lacks the permission for this call */
    /* lokhazim_image.h */
    LOKHAZIM_IMAGE_LENGTH = 21,          /* the image's length is 0 or no multiple of 512 */
    LOKHAZIM_IMAGE_FRAME = 22,           /* a frame's check, number or count is wrong */
    LOKHAZIM_IMAGE_FORM = 23,            /* another form, or wrong marks of kind and edition */
    LOKHAZIM_IMAGE_CONTENTS = 24,        /* a wrong heap length, or bytes where zeros belong */
    LOKHAZIM_IMAGE_ROOM = 25,            /* the lent image or heap has not the needed length */
    LOKHAZIM_IMAGE_INCONSISTENT = 26,    /* heap and accounts in the image don't agree */
    LOKHAZIM_IMAGE_HEAP_LENGTHS = 27,    /* the heaps of two images have different lengths */
    LOKHAZIM_IMAGE_NOT_CARRIED = 28,     /* form 1 can't carry these accounts */
    LOKHAZIM_IMAGE_FORMS_DIFFER = 29,    /* two images are of different forms */
    /* lokhazim_report.h */
    LOKHAZIM_REPORT_CHARACTER = 31,      /* a wrong character, or one at a wrong place */
    LOKHAZIM_REPORT_RESERVED = 32,       /* a word after the first is not zero */
    LOKHAZIM_REPORT_TOO_MANY = 33,       /* something stands behind the last quota's line */
    LOKHAZIM_REPORT_ROOM = 34,           /* the lent text is too short */
    /* lokhazim_settings.h */
    LOKHAZIM_SETTINGS_MALFORMED = 41,    /* a store is no run of entries */
    LOKHAZIM_SETTINGS_MISSING = 42,      /* no entry of that name at that version or below */
    LOKHAZIM_SETTINGS_VALUE_LENGTH = 43, /* the value has more than 64 bytes */
    LOKHAZIM_SETTINGS_VERSION_FALLS = 44, /* the version is below the last entry's */
    LOKHAZIM_SETTINGS_FULL = 45,         /* the entry has no room in the store */
    /* lokhazim_queue.h */
    LOKHAZIM_QUEUE_FULL = 51,            /* no room for another handle */
    LOKHAZIM_QUEUE_EMPTY = 52,           /* nothing is on its way */
    LOKHAZIM_QUEUE_DAMAGED = 53,         /* the queue's count is above its places */
    /* Of the headers themselves, before the library is called. */
    LOKHAZIM_BAD_POINTER = 100           /* a null pointer, or a heap that is not aligned */
};

/* ---- The heap, its accounts and a handle ---- */

/* What a quota was granted at the opening, what remains of it, and what it may do. */
struct lokhazim_quota {
    uint32_t grant;
    uint32_t remainder;
    uint8_t permissions;
};

/* How often a quota holds the object with this serial; unused if all zero. */
struct lokhazim_hold {
    uint32_t serial;
    uint8_t quota;
    uint8_t count;
};

/* The accounts of a heap: to be kept with it, and changed by the calls alone. Kind and edition are
 * those of the opening. There is padding behind the last field of a quota, of a hold and of the
 * accounts, so compare accounts field by field. No call answers by what is in it. */
struct lokhazim_accounts {
    struct lokhazim_quota quotas[LOKHAZIM_QUOTAS];
    uint32_t last_serial;
    struct lokhazim_hold holds[LOKHAZIM_HOLDS];
    uint8_t kind;
    uint8_t edition;
};

/* A heap: its bytes, how many they are, and its accounts. Calls take it as `const`: no call
 * changes these three fields. The bytes and the accounts that they point to are written by the
 * calls that are said to change something. */
struct lokhazim_heap {
    uint8_t *bytes;
    size_t length;
    struct lokhazim_accounts *accounts;
};

/* An object or a part of one: the offset of the first byte in the heap, the number of bytes, and
 * the object's serial. Every handle that a call gives is that of a whole object. It can be copied
 * and handed on, and made narrower with lokhazim_handle_narrowed. With its serial, any range of at
 * least one byte inside the object names it, as long as any quota holds it, and then nothing.
 *
 * A hold is always on the whole object, by whatever part of it a quota claims or releases. Lend and
 * write keep to the part. Reallocate takes the whole handle alone. Whoever may fill in the three
 * numbers can widen a handle again, so let the trusted place keep them. */
struct lokhazim_handle {
    uint32_t base;
    uint32_t length;
    uint32_t serial;
};

/* What each quota is granted. */
struct lokhazim_grants {
    uint32_t values[LOKHAZIM_QUOTAS];
};

/* A block: `found` is 1 where there is one. Serial 0 is a free block, LOKHAZIM_QUARANTINED one in
 * quarantine. Where the call is refused, all is 0 but the refusal. */
struct lokhazim_block_reply {
    uint32_t refusal;
    uint32_t found;
    size_t offset;
    size_t size;
    uint32_t serial;
};

/* ---- The library's own functions ----
 *
 * What liblokhazim.a exports, for the functions below; programs don't call it. Nothing here checks
 * a pointer. Where a call is refused, all of a reply is 0 but the refusal.
 */

struct lokhazim_handle_reply {
    uint32_t refusal;
    struct lokhazim_handle handle;
};
struct lokhazim_amount_reply {
    uint32_t refusal;
    uint32_t amount;
};
struct lokhazim_range_reply {
    uint32_t refusal;
    size_t start;
    size_t end;
};

LOKHAZIM_LAYOUT(lokhazim_quota, 12, permissions, 8);
LOKHAZIM_LAYOUT(lokhazim_hold, 8, count, 5);
LOKHAZIM_LAYOUT(lokhazim_accounts, 4488, edition, 4485);
LOKHAZIM_LAYOUT(lokhazim_handle, 12, serial, 8);
LOKHAZIM_LAYOUT(lokhazim_grants, 128, values, 0);
LOKHAZIM_LAYOUT(lokhazim_block_reply, 8 + 3 * sizeof(size_t), serial, 8 + 2 * sizeof(size_t));
LOKHAZIM_LAYOUT(lokhazim_handle_reply, 16, handle, 4);
LOKHAZIM_LAYOUT(lokhazim_amount_reply, 8, amount, 4);
LOKHAZIM_LAYOUT(lokhazim_range_reply, 3 * sizeof(size_t), end, 2 * sizeof(size_t));

LOKHAZIM_API uint32_t lokhazim_raw_open(uint8_t *heap, size_t length,
    struct lokhazim_accounts *accounts, struct lokhazim_grants grants, uint32_t kind,
    uint32_t edition);
LOKHAZIM_API struct lokhazim_handle_reply lokhazim_raw_allocate(uint8_t *heap, size_t length,
    struct lokhazim_accounts *accounts, uint32_t quota, uint32_t bytes);
LOKHAZIM_API struct lokhazim_handle_reply lokhazim_raw_allocate_array(uint8_t *heap, size_t length,
    struct lokhazim_accounts *accounts, uint32_t quota, uint32_t count, uint32_t size);
LOKHAZIM_API struct lokhazim_amount_reply lokhazim_raw_claim(const uint8_t *heap, size_t length,
    struct lokhazim_accounts *accounts, uint32_t quota, struct lokhazim_handle handle);
LOKHAZIM_API struct lokhazim_amount_reply lokhazim_raw_release(uint8_t *heap, size_t length,
    struct lokhazim_accounts *accounts, uint32_t quota, struct lokhazim_handle handle);
LOKHAZIM_API struct lokhazim_amount_reply lokhazim_raw_free_all(uint8_t *heap, size_t length,
    struct lokhazim_accounts *accounts, uint32_t quota);
LOKHAZIM_API struct lokhazim_amount_reply lokhazim_raw_clear_permissions(const uint8_t *heap,
    size_t length, struct lokhazim_accounts *accounts, uint32_t quota, uint32_t bits);
LOKHAZIM_API struct lokhazim_handle_reply lokhazim_raw_reallocate(uint8_t *heap, size_t length,
    struct lokhazim_accounts *accounts, uint32_t quota, struct lokhazim_handle handle,
    uint32_t bytes);
LOKHAZIM_API struct lokhazim_amount_reply lokhazim_raw_sweep(uint8_t *heap, size_t length,
    const struct lokhazim_accounts *accounts);
LOKHAZIM_API struct lokhazim_range_reply lokhazim_raw_lend(const uint8_t *heap, size_t length,
    const struct lokhazim_accounts *accounts, struct lokhazim_handle handle);
LOKHAZIM_API uint32_t lokhazim_raw_write(uint8_t *heap, size_t length,
    const struct lokhazim_accounts *accounts, struct lokhazim_handle handle, uint32_t at,
    uint8_t byte);
LOKHAZIM_API struct lokhazim_amount_reply lokhazim_raw_remaining(const uint8_t *heap, size_t length,
    const struct lokhazim_accounts *accounts, uint32_t quota);
LOKHAZIM_API uint32_t lokhazim_raw_can_release(const uint8_t *heap, size_t length,
    const struct lokhazim_accounts *accounts, uint32_t quota, struct lokhazim_handle handle);
LOKHAZIM_API struct lokhazim_block_reply lokhazim_raw_list_block(const uint8_t *heap, size_t length,
    const struct lokhazim_accounts *accounts, size_t at);
LOKHAZIM_API uint32_t lokhazim_raw_check(const uint8_t *heap, size_t length,
    const struct lokhazim_accounts *accounts);

/* The headers' own functions, lokhazim_own_...: this one tells whether a call can be made over a
 * heap. No pointer is null, and the addresses are aligned. */
static inline int lokhazim_own_usable(const struct lokhazim_heap *heap)
{
    return heap && heap->bytes && heap->accounts
        && (uintptr_t)heap->bytes % LOKHAZIM_ALIGNMENT == 0
        && (uintptr_t)heap->accounts % sizeof(uint32_t) == 0;
}

/* Hands a reply's handle out, and gives its refusal. */
static inline enum lokhazim_refusal lokhazim_own_handle(
    struct lokhazim_handle_reply reply, struct lokhazim_handle *handle)
{
    if (handle) {
        *handle = reply.handle;
    }
    return (enum lokhazim_refusal)reply.refusal;
}

/* Hands a reply's amount out, if it is wanted, and gives its refusal. */
static inline enum lokhazim_refusal lokhazim_own_amount(
    struct lokhazim_amount_reply reply, uint32_t *amount)
{
    if (amount) {
        *amount = reply.amount;
    }
    return (enum lokhazim_refusal)reply.refusal;
}

/* ---- A refusal in words ---- */

/* What is wrong, and what to do, for any number of any header; never a null pointer. */
LOKHAZIM_NODISCARD static inline const char *lokhazim_refusal_text(uint32_t refusal)
{
    switch (refusal) {
    case LOKHAZIM_ACCEPTED:
        return "not refused";
    case LOKHAZIM_HEAP_LENGTH:
        return "the heap's length is not allowed; lend 64 to 32,768 bytes, a multiple of 8";
    case LOKHAZIM_INCONSISTENT:
        return "the heap's bytes and its accounts don't agree; something else has written to them, "
               "so open the heap anew";
    case LOKHAZIM_QUOTA_NUMBER:
        return "there is no quota of this number; use 0 to 31";
    case LOKHAZIM_OBJECT_LENGTH:
        return "no object can have this length; ask for 1 to 32,760 bytes in all";
    case LOKHAZIM_NO_SUCH_OBJECT:
        return "the handle names no live object; use it only while a quota holds the object, and "
               "reallocate with the whole object's handle";
    case LOKHAZIM_NOT_HELD:
        return "this quota doesn't hold the object; claim it, or name the quota that does";
    case LOKHAZIM_COUNT_LIMIT:
        return "this quota holds the object 255 times; release it before you claim it again";
    case LOKHAZIM_QUOTA_EXCEEDED:
        return "the object costs its length plus 8, and less remains of the quota; release "
               "something or ask for less";
    case LOKHAZIM_HOLDS_EXHAUSTED:
        return "all 512 hold records are used; release something";
    case LOKHAZIM_SERIALS_EXHAUSTED:
        return "every serial was given; open the heap anew";
    case LOKHAZIM_NO_SPACE:
        return "no free run of bytes is long enough; release something, sweep a heap with "
               "quarantine, or ask for less";
    case LOKHAZIM_NOT_PERMITTED:
        return "the quota lacks the permission for this call; it was cleared, and only an opening "
               "or an image that is read sets it again";
    case LOKHAZIM_IMAGE_LENGTH:
        return "the image's length is 0 or no multiple of 512; hand over the whole image and "
               "nothing else";
    case LOKHAZIM_IMAGE_FRAME:
        return "a frame's check, number or count is wrong; the image is damaged, cut short or "
               "longer than it was written";
    case LOKHAZIM_IMAGE_FORM:
        return "this is no image of a form that this version reads, or not of the form that is "
               "moved this way";
    case LOKHAZIM_IMAGE_CONTENTS:
        return "the image states a heap length that it can't have, or has bytes where zeros "
               "belong; it was not written by this library";
    case LOKHAZIM_IMAGE_ROOM:
        return "the lent image is too short, or the lent heap has not the length of the image's; "
               "ask for the image's length, or examine the image";
    case LOKHAZIM_IMAGE_INCONSISTENT:
        return "the heap and the accounts in the image don't agree; it was not written by this "
               "library";
    case LOKHAZIM_IMAGE_HEAP_LENGTHS:
        return "the heaps of the two images have different lengths; only images of one length are "
               "compared";
    case LOKHAZIM_IMAGE_NOT_CARRIED:
        return "form 1 has fewer quotas and records, all permissions, no quarantine and edition 1 "
               "alone; save form 2";
    case LOKHAZIM_IMAGE_FORMS_DIFFER:
        return "the two images are of different forms; move one to the form of the other to "
               "compare them";
    case LOKHAZIM_REPORT_CHARACTER:
        return "a wrong character, or one at a wrong place; a line is six words of eight digits "
               "0-9 and a-f, single spaces between them, and a line feed";
    case LOKHAZIM_REPORT_RESERVED:
        return "a word after the first is not zero; only the first word, the grant, may be another "
               "number";
    case LOKHAZIM_REPORT_TOO_MANY:
        return "something stands behind the last quota's line; a report has at most 32 lines";
    case LOKHAZIM_REPORT_ROOM:
        return "the lent text has fewer than 1728 bytes; lend that many";
    case LOKHAZIM_SETTINGS_MALFORMED:
        return "a store is no run of entries: one is cut short, too long or of a falling version; "
               "take another copy of it";
    case LOKHAZIM_SETTINGS_MISSING:
        return "neither store has an entry of this name at this version; ask at a higher version, "
               "or add one";
    case LOKHAZIM_SETTINGS_VALUE_LENGTH:
        return "the value has more than 64 bytes; shorten it, or spread it over several names";
    case LOKHAZIM_SETTINGS_VERSION_FALLS:
        return "the version is below that of the store's last entry; add it at that version or a "
               "higher one";
    case LOKHAZIM_SETTINGS_FULL:
        return "the entry has no room behind the used bytes; lend more bytes, 4 and the value's "
               "length";
    case LOKHAZIM_QUEUE_FULL:
        return "the queue is full; receive first";
    case LOKHAZIM_QUEUE_EMPTY:
        return "nothing is on its way; send first";
    case LOKHAZIM_QUEUE_DAMAGED:
        return "the queue's count is above 16; something else has written to it, so make a new "
               "queue";
    case LOKHAZIM_BAD_POINTER:
        return "a pointer is null, or the heap is not aligned; fill in bytes and accounts of "
               "struct lokhazim_heap, begin the bytes at a multiple of LOKHAZIM_ALIGNMENT, and "
               "hand over a place for the answer";
    default:
        return "unknown refusal";
    }
}

/* ---- A narrower handle ---- */

/* Makes a handle of `bytes` bytes of the handle's range, from `at` bytes behind its base on. It
 * names what the wider handle names. Where that is no byte, or not inside the range, the handle is
 * all zero and names nothing. Only the numbers are looked at, not the heap. */
LOKHAZIM_NODISCARD static inline struct lokhazim_handle lokhazim_handle_narrowed(
    struct lokhazim_handle handle, uint32_t at, uint32_t bytes)
{
    const struct lokhazim_handle none = { 0, 0, 0 };
    const struct lokhazim_handle part = { handle.base + at, bytes, handle.serial };
    const int inside = at <= handle.length && bytes <= handle.length - at;
    return bytes != 0 && inside && at <= UINT32_MAX - handle.base ? part : none;
}

/* ---- The calls, for programs ----
 *
 * Each gives its refusal. The last pointers take the answer, which is zero where the call is
 * refused. A pointer to a number may be null if the number isn't wanted; any other null pointer
 * gives refusal 100, and so does a heap that is not aligned. That is checked first, and then heap
 * and accounts stay as they were. Any call can then give refusal 1, and any but open 2. The others
 * are named, in the order in which they are checked.
 */

/* Clears the heap, gives each quota its grant and sets kind and edition. Any number but 0 opens a
 * heap with quarantine, or of edition 2. Refused by 1, it sets the accounts to zero. Refusals
 * 100, 1. */
LOKHAZIM_CALL lokhazim_heap_open(const struct lokhazim_heap *heap, struct lokhazim_grants grants,
    enum lokhazim_kind kind, enum lokhazim_edition edition)
{
    return lokhazim_own_usable(heap)
        ? (enum lokhazim_refusal)lokhazim_raw_open(
              heap->bytes, heap->length, heap->accounts, grants, (uint32_t)kind, (uint32_t)edition)
        : LOKHAZIM_BAD_POINTER;
}

/* Makes an object of at least `bytes` bytes, all zero, that the quota holds once. Refusals 3, 12,
 * 4, 8 to 11. */
LOKHAZIM_CALL lokhazim_heap_allocate(const struct lokhazim_heap *heap, uint32_t quota,
    uint32_t bytes, struct lokhazim_handle *handle)
{
    struct lokhazim_handle_reply reply = { LOKHAZIM_BAD_POINTER, { 0, 0, 0 } };
    if (handle && lokhazim_own_usable(heap)) {
        reply = lokhazim_raw_allocate(heap->bytes, heap->length, heap->accounts, quota, bytes);
    }
    return lokhazim_own_handle(reply, handle);
}

/* Makes an object for `count` elements of `size` bytes; their product is never cut to 32 bits.
 * Refusals 3, 12, 4, 8 to 11. */
LOKHAZIM_CALL lokhazim_heap_allocate_array(const struct lokhazim_heap *heap, uint32_t quota,
    uint32_t count, uint32_t size, struct lokhazim_handle *handle)
{
    struct lokhazim_handle_reply reply = { LOKHAZIM_BAD_POINTER, { 0, 0, 0 } };
    if (handle && lokhazim_own_usable(heap)) {
        reply = lokhazim_raw_allocate_array(
            heap->bytes, heap->length, heap->accounts, quota, count, size);
    }
    return lokhazim_own_handle(reply, handle);
}

/* Lets the quota hold the object, or hold it once more. *bytes becomes the length of the whole
 * object, also where the handle has a part of it. The first hold costs that plus LOKHAZIM_HEADER,
 * further ones nothing. The heap's bytes stay. Refusals 3, 12, 5, 7 to 9. */
LOKHAZIM_CALL lokhazim_heap_claim(const struct lokhazim_heap *heap, uint32_t quota,
    struct lokhazim_handle handle, uint32_t *bytes)
{
    struct lokhazim_amount_reply reply = { LOKHAZIM_BAD_POINTER, 0 };
    if (lokhazim_own_usable(heap)) {
        reply = lokhazim_raw_claim(heap->bytes, heap->length, heap->accounts, quota, handle);
    }
    return lokhazim_own_amount(reply, bytes);
}

/* Drops one hold of the quota. *refund becomes what the quota gets back, 0 while it still holds the
 * object. A handle of a part drops the hold on the whole object. The object that nobody holds any
 * more is cleared; its block is free, or waits for a sweep, by the heap's kind. Refusals 3, 5,
 * 6. */
LOKHAZIM_CALL lokhazim_heap_release(const struct lokhazim_heap *heap, uint32_t quota,
    struct lokhazim_handle handle, uint32_t *refund)
{
    struct lokhazim_amount_reply reply = { LOKHAZIM_BAD_POINTER, 0 };
    if (lokhazim_own_usable(heap)) {
        reply = lokhazim_raw_release(heap->bytes, heap->length, heap->accounts, quota, handle);
    }
    return lokhazim_own_amount(reply, refund);
}

/* Drops every hold of the quota. *refund becomes what the quota gets back. Refusals 3, 12. */
LOKHAZIM_CALL lokhazim_heap_free_all(const struct lokhazim_heap *heap, uint32_t quota,
    uint32_t *refund)
{
    struct lokhazim_amount_reply reply = { LOKHAZIM_BAD_POINTER, 0 };
    if (lokhazim_own_usable(heap)) {
        reply = lokhazim_raw_free_all(heap->bytes, heap->length, heap->accounts, quota);
    }
    return lokhazim_own_amount(reply, refund);
}

/* Clears the quota's permissions whose bits are set in `bits`, such as LOKHAZIM_MAY_CLAIM |
 * LOKHAZIM_MAY_FREE_ALL. Other bits mean nothing, and 0 clears none. *left becomes the permissions
 * that the quota still has. So a part can lend its quota to a helper that may release, and not
 * drop everything. The heap's bytes stay. Refusal 3. */
LOKHAZIM_CALL lokhazim_heap_clear_permissions(const struct lokhazim_heap *heap, uint32_t quota,
    uint32_t bits, uint32_t *left)
{
    struct lokhazim_amount_reply reply = { LOKHAZIM_BAD_POINTER, 0 };
    if (lokhazim_own_usable(heap)) {
        reply = lokhazim_raw_clear_permissions(
            heap->bytes, heap->length, heap->accounts, quota, bits);
    }
    return lokhazim_own_amount(reply, left);
}

/* Makes *moved with the old object's bytes, as far as both lengths go, then drops one hold on the
 * old object. Quota, records and heap need room for both. Where it is refused, *moved becomes zero
 * and the old object stays: with `&handle` for `moved` the only copy of its handle would be lost.
 * So take the answer in another handle, and copy that once the call is accepted. A handle that was
 * made narrower gives refusal 5. Refusals 3, 12, 4 to 6, 8 to 11. */
LOKHAZIM_CALL lokhazim_heap_reallocate(const struct lokhazim_heap *heap, uint32_t quota,
    struct lokhazim_handle handle, uint32_t bytes, struct lokhazim_handle *moved)
{
    struct lokhazim_handle_reply reply = { LOKHAZIM_BAD_POINTER, { 0, 0, 0 } };
    if (moved && lokhazim_own_usable(heap)) {
        reply = lokhazim_raw_reallocate(
            heap->bytes, heap->length, heap->accounts, quota, handle, bytes);
    }
    return lokhazim_own_handle(reply, moved);
}

/* Makes every quarantined block free and joins neighbours that are free. *swept becomes the sum of
 * their sizes in bytes, headers included. Nothing is refunded: that was done when they were
 * released. In a plain heap, and where no block waits, it is accepted, gives 0 and changes nothing.
 * The accounts stay. */
LOKHAZIM_CALL lokhazim_heap_sweep(const struct lokhazim_heap *heap, uint32_t *swept)
{
    struct lokhazim_amount_reply reply = { LOKHAZIM_BAD_POINTER, 0 };
    if (lokhazim_own_usable(heap)) {
        reply = lokhazim_raw_sweep(heap->bytes, heap->length, heap->accounts);
    }
    return lokhazim_own_amount(reply, swept);
}

/* Lends the handle's bytes: handle.length bytes at *object, until the object is freed; a null
 * pointer where it is refused. No other byte of the object is lent. No hold is needed, and nothing
 * is written. Refusal 5. */
LOKHAZIM_CALL lokhazim_heap_lend(const struct lokhazim_heap *heap, struct lokhazim_handle handle,
    uint8_t **object)
{
    struct lokhazim_range_reply reply = { LOKHAZIM_BAD_POINTER, 0, 0 };
    if (object && lokhazim_own_usable(heap)) {
        reply = lokhazim_raw_lend(heap->bytes, heap->length, heap->accounts, handle);
    }
    if (object) {
        *object = reply.refusal == LOKHAZIM_ACCEPTED ? heap->bytes + reply.start : NULL;
    }
    return (enum lokhazim_refusal)reply.refusal;
}

/* Writes one byte of the handle's range, `at` bytes behind its base; writes nothing at its end or
 * behind. The accounts stay. Refusal 5. */
LOKHAZIM_CALL lokhazim_heap_write(const struct lokhazim_heap *heap, struct lokhazim_handle handle,
    uint32_t at, uint8_t byte)
{
    return lokhazim_own_usable(heap)
        ? (enum lokhazim_refusal)lokhazim_raw_write(
              heap->bytes, heap->length, heap->accounts, handle, at, byte)
        : LOKHAZIM_BAD_POINTER;
}

/* Tells what remains of the quota. Nothing is written. Refusal 3. */
LOKHAZIM_CALL lokhazim_heap_remaining(const struct lokhazim_heap *heap, uint32_t quota,
    uint32_t *remainder)
{
    struct lokhazim_amount_reply reply = { LOKHAZIM_BAD_POINTER, 0 };
    if (lokhazim_own_usable(heap)) {
        reply = lokhazim_raw_remaining(heap->bytes, heap->length, heap->accounts, quota);
    }
    return lokhazim_own_amount(reply, remainder);
}

/* Gives the refusal that release would give, and changes nothing. Refusals 3, 5, 6. */
LOKHAZIM_CALL lokhazim_heap_can_release(const struct lokhazim_heap *heap, uint32_t quota,
    struct lokhazim_handle handle)
{
    return lokhazim_own_usable(heap)
        ? (enum lokhazim_refusal)lokhazim_raw_can_release(
              heap->bytes, heap->length, heap->accounts, quota, handle)
        : LOKHAZIM_BAD_POINTER;
}

/* Tells which block starts at offset `at`. The next starts at its offset + size; behind the last,
 * found is 0. Nothing is written. */
LOKHAZIM_CALL lokhazim_heap_list_block(const struct lokhazim_heap *heap, size_t at,
    struct lokhazim_block_reply *block)
{
    struct lokhazim_block_reply reply = { LOKHAZIM_BAD_POINTER, 0, 0, 0, 0 };
    if (block && lokhazim_own_usable(heap)) {
        reply = lokhazim_raw_list_block(heap->bytes, heap->length, heap->accounts, at);
    }
    if (block) {
        *block = reply;
    }
    return (enum lokhazim_refusal)reply.refusal;
}

/* Checks heap and accounts as every call but open does first. Nothing is written. */
LOKHAZIM_CALL lokhazim_heap_check(const struct lokhazim_heap *heap)
{
    return lokhazim_own_usable(heap)
        ? (enum lokhazim_refusal)lokhazim_raw_check(heap->bytes, heap->length, heap->accounts)
        : LOKHAZIM_BAD_POINTER;
}

#endif
