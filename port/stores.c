/* The functions of lokhazim_settings.h, over those of the proved module (port/core.h). Only arguments and answers are handed on. */
#include "core.h"
#include "lokhazim_settings.h"

struct core_found {
    _Alignas(8) uint32_t refusal;
    uint32_t store;
    _Alignas(8) uint64_t start;
    _Alignas(8) uint64_t end;
};

struct core_entry {
    _Alignas(8) uint32_t refusal;
    uint32_t there;
    uint16_t version;
    uint8_t name;
    _Alignas(8) uint64_t start;
    _Alignas(8) uint64_t end;
};

LOKHAZIM_ASSERT(sizeof(struct core_found) == 24 && offsetof(struct core_found, start) == 8 && offsetof(struct core_found, end) == 16,
                "a reply is not as the module has it");
LOKHAZIM_ASSERT(sizeof(struct core_entry) == 32 && offsetof(struct core_entry, name) == 10 && offsetof(struct core_entry, start) == 16,
                "a reply is not as the module has it");

void lokhazim_core_raw_settings_find(struct core_found *, const uint8_t *, uint64_t, uint64_t, const uint8_t *, uint64_t, uint64_t, uint8_t, uint16_t);
struct lokhazim_find_reply lokhazim_raw_settings_find(const uint8_t *board, size_t board_length, size_t board_used,
    const uint8_t *defaults, size_t defaults_length, size_t defaults_used, uint8_t name, uint16_t version)
{
    struct core_found core;
    lokhazim_core_raw_settings_find(&core, board, board_length, board_used, defaults, defaults_length, defaults_used, name, version);
    const struct lokhazim_find_reply reply = { core.refusal, core.store, (size_t)core.start, (size_t)core.end };
    return reply;
}

void lokhazim_core_raw_settings_add(struct core_written *, const uint8_t *, uint64_t, uint64_t, uint8_t, uint16_t, const uint8_t *, uint64_t);
struct lokhazim_add_reply lokhazim_raw_settings_add(
    uint8_t *store, size_t length, size_t used, uint8_t name, uint16_t version, const uint8_t *value, size_t value_length)
{
    struct core_written core;
    lokhazim_core_raw_settings_add(&core, store, length, used, name, version, value, value_length);
    const struct lokhazim_add_reply reply = { core.refusal, (size_t)core.length };
    return reply;
}

void lokhazim_core_raw_settings_entry(struct core_entry *, const uint8_t *, uint64_t, uint64_t, uint64_t);
struct lokhazim_entry_reply lokhazim_raw_settings_entry(const uint8_t *store, size_t length, size_t used, size_t n)
{
    struct core_entry core;
    lokhazim_core_raw_settings_entry(&core, store, length, used, n);
    const struct lokhazim_entry_reply reply = { core.refusal, core.there, core.version, core.name, (size_t)core.start, (size_t)core.end };
    return reply;
}
