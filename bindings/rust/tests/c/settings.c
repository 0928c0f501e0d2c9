/*
 * Settings from C: entries are added behind each other, the value is a pointer into the board's store or into the
 * defaults, every entry is listed, and each refusal leaves store, used length and pointers alone.
 */
#include "check.h"
#include "lokhazim_settings.h"

#include <string.h>

static const uint8_t defaults[] = {0, 0, 7, 3, 'o', 'f', 'f', 0xFF, 0xFF, 0xFF, 1, 9};
static uint8_t board[80];
static size_t used;

static enum lokhazim_refusal add(uint8_t name, uint16_t version, const char *value, size_t length)
{
    return lokhazim_settings_add(board, sizeof board, &used, name, version, (const uint8_t *)value, length);
}

static enum lokhazim_refusal find(uint8_t name, uint16_t version, const uint8_t **value, size_t *length)
{
    return lokhazim_settings_find(
        board, sizeof board, used, defaults, sizeof defaults, sizeof defaults, name, version, value, length);
}

/* Entries behind each other, and the bytes that they are. */
static void add_two(void)
{
    static const uint8_t written[] = {1, 2, 7, 2, 'o', 'n', 0xFF, 0xFF, 0xFE, 0};
    memset(board, 0xEE, sizeof board);
    CHECK(add(7, 0x0201, "on", 2) == LOKHAZIM_ACCEPTED && used == 6);
    CHECK(add(0xFE, 0xFFFF, "", 0) == LOKHAZIM_ACCEPTED && used == 10);
    CHECK(memcmp(board, written, sizeof written) == 0);
    for (size_t i = used; i < sizeof board; i++) {
        CHECK(board[i] == 0xEE);
    }
}

/* The value is where it lies, in one of the two. */
static void ask(void)
{
    const uint8_t *value = NULL;
    size_t length = 99;
    CHECK(find(7, 0x0200, &value, &length) == LOKHAZIM_ACCEPTED && value == defaults + 4 && length == 3);
    CHECK(find(7, 0x0201, &value, &length) == LOKHAZIM_ACCEPTED && value == board + 4 && length == 2);
    CHECK(find(0xFF, 0xFFFF, &value, &length) == LOKHAZIM_ACCEPTED && value == defaults + 11 && length == 1);
    CHECK(find(0xFE, 0xFFFF, &value, &length) == LOKHAZIM_ACCEPTED && value == board + 10 && length == 0);
}

/* Each refusal, and what it leaves alone. */
static void refuse(void)
{
    static const char long_value[65] = "";
    const uint8_t *value = defaults;
    size_t length = 99;
    uint8_t before[sizeof board];
    memcpy(before, board, sizeof board);
    CHECK(find(8, 0xFFFF, &value, &length) == LOKHAZIM_SETTINGS_MISSING && value == NULL && length == 0);
    value = defaults;
    length = 99;
    CHECK(add(7, 0, long_value, 65) == LOKHAZIM_SETTINGS_VALUE_LENGTH);
    CHECK(add(7, 0xFFFE, long_value, 64) == LOKHAZIM_SETTINGS_VERSION_FALLS);
    used = 9;
    CHECK(find(7, 1, &value, &length) == LOKHAZIM_SETTINGS_MALFORMED && value == NULL && length == 0);
    CHECK(add(7, 0, long_value, 65) == LOKHAZIM_SETTINGS_MALFORMED && used == 9);
    used = sizeof board + 1;
    CHECK(add(7, 0, long_value, 65) == LOKHAZIM_SETTINGS_MALFORMED);
    used = 10;
    CHECK(memcmp(before, board, sizeof board) == 0);
    CHECK(add(7, 0xFFFF, long_value, LOKHAZIM_SETTINGS_VALUE_MAX) == LOKHAZIM_ACCEPTED && used == 78);
    CHECK(add(7, 0xFFFF, "", 0) == LOKHAZIM_SETTINGS_FULL && used == 78);
}

/* Every entry in its order. */
static void list(void)
{
    static const uint8_t names[] = {7, 0xFE, 7};
    size_t at = 0, count = 0;
    uint16_t last = 0;
    for (;;) {
        struct lokhazim_entry_reply entry;
        ACCEPTED(lokhazim_settings_entry(board, sizeof board, used, count, &entry));
        if (!entry.there) {
            break;
        }
        CHECK(entry.name == names[count] && entry.start == at + LOKHAZIM_SETTINGS_FRONT && last <= entry.version);
        count++;
        at = entry.end;
        last = entry.version;
    }
    CHECK(count == 3 && at == used && last == 0xFFFF);
    struct lokhazim_entry_reply none = { 1, 1, 1, 1, 1, 1 };
    ACCEPTED(lokhazim_settings_entry(board, sizeof board, used, SIZE_MAX, &none));
    CHECK(!none.there);
    for (size_t n = 0; n < 4; n++) {
        REFUSED(SETTINGS_MALFORMED, lokhazim_settings_entry(board, sizeof board, used - 1, n, &none));
        CHECK(!none.there && none.start == 0 && none.end == 0);
    }
}

int main(void)
{
    add_two();
    ask();
    refuse();
    list();
    return EXIT_SUCCESS;
}
