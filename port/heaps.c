/* The calls of lokhazim.h, over those of the proved module (port/core.h). Only arguments and answers are handed on. */
#include "core.h"

uint32_t lokhazim_core_raw_open(const uint8_t *, uint64_t, struct lokhazim_accounts *, const struct lokhazim_grants *, uint32_t, uint32_t);
uint32_t lokhazim_raw_open(
    uint8_t *heap, size_t length, struct lokhazim_accounts *accounts, struct lokhazim_grants grants, uint32_t kind, uint32_t edition)
{
    return lokhazim_core_raw_open(heap, length, accounts, &grants, kind, edition);
}

void lokhazim_core_raw_allocate(struct lokhazim_handle_reply *, const uint8_t *, uint64_t, struct lokhazim_accounts *, uint32_t, uint32_t);
struct lokhazim_handle_reply lokhazim_raw_allocate(
    uint8_t *heap, size_t length, struct lokhazim_accounts *accounts, uint32_t quota, uint32_t bytes)
{
    struct lokhazim_handle_reply reply;
    lokhazim_core_raw_allocate(&reply, heap, length, accounts, quota, bytes);
    return reply;
}

void lokhazim_core_raw_allocate_array(struct lokhazim_handle_reply *, const uint8_t *, uint64_t, struct lokhazim_accounts *, uint32_t, uint32_t, uint32_t);
struct lokhazim_handle_reply lokhazim_raw_allocate_array(
    uint8_t *heap, size_t length, struct lokhazim_accounts *accounts, uint32_t quota, uint32_t count, uint32_t size)
{
    struct lokhazim_handle_reply reply;
    lokhazim_core_raw_allocate_array(&reply, heap, length, accounts, quota, count, size);
    return reply;
}

void lokhazim_core_raw_claim(struct lokhazim_amount_reply *, const uint8_t *, uint64_t, struct lokhazim_accounts *, uint32_t, const struct lokhazim_handle *);
struct lokhazim_amount_reply lokhazim_raw_claim(
    const uint8_t *heap, size_t length, struct lokhazim_accounts *accounts, uint32_t quota, struct lokhazim_handle handle)
{
    struct lokhazim_amount_reply reply;
    lokhazim_core_raw_claim(&reply, heap, length, accounts, quota, &handle);
    return reply;
}

void lokhazim_core_raw_release(struct lokhazim_amount_reply *, const uint8_t *, uint64_t, struct lokhazim_accounts *, uint32_t, const struct lokhazim_handle *);
struct lokhazim_amount_reply lokhazim_raw_release(
    uint8_t *heap, size_t length, struct lokhazim_accounts *accounts, uint32_t quota, struct lokhazim_handle handle)
{
    struct lokhazim_amount_reply reply;
    lokhazim_core_raw_release(&reply, heap, length, accounts, quota, &handle);
    return reply;
}

void lokhazim_core_raw_free_all(struct lokhazim_amount_reply *, const uint8_t *, uint64_t, struct lokhazim_accounts *, uint32_t);
struct lokhazim_amount_reply lokhazim_raw_free_all(uint8_t *heap, size_t length, struct lokhazim_accounts *accounts, uint32_t quota)
{
    struct lokhazim_amount_reply reply;
    lokhazim_core_raw_free_all(&reply, heap, length, accounts, quota);
    return reply;
}

void lokhazim_core_raw_clear_permissions(struct lokhazim_amount_reply *, const uint8_t *, uint64_t, struct lokhazim_accounts *, uint32_t, uint32_t);
struct lokhazim_amount_reply lokhazim_raw_clear_permissions(
    const uint8_t *heap, size_t length, struct lokhazim_accounts *accounts, uint32_t quota, uint32_t bits)
{
    struct lokhazim_amount_reply reply;
    lokhazim_core_raw_clear_permissions(&reply, heap, length, accounts, quota, bits);
    return reply;
}

void lokhazim_core_raw_reallocate(
    struct lokhazim_handle_reply *, const uint8_t *, uint64_t, struct lokhazim_accounts *, uint32_t, const struct lokhazim_handle *, uint32_t);
struct lokhazim_handle_reply lokhazim_raw_reallocate(
    uint8_t *heap, size_t length, struct lokhazim_accounts *accounts, uint32_t quota, struct lokhazim_handle handle, uint32_t bytes)
{
    struct lokhazim_handle_reply reply;
    lokhazim_core_raw_reallocate(&reply, heap, length, accounts, quota, &handle, bytes);
    return reply;
}

void lokhazim_core_raw_sweep(struct lokhazim_amount_reply *, const uint8_t *, uint64_t, const struct lokhazim_accounts *);
struct lokhazim_amount_reply lokhazim_raw_sweep(uint8_t *heap, size_t length, const struct lokhazim_accounts *accounts)
{
    struct lokhazim_amount_reply reply;
    lokhazim_core_raw_sweep(&reply, heap, length, accounts);
    return reply;
}

void lokhazim_core_raw_lend(struct core_range *, const uint8_t *, uint64_t, const struct lokhazim_accounts *, const struct lokhazim_handle *);
struct lokhazim_range_reply lokhazim_raw_lend(
    const uint8_t *heap, size_t length, const struct lokhazim_accounts *accounts, struct lokhazim_handle handle)
{
    struct core_range core;
    lokhazim_core_raw_lend(&core, heap, length, accounts, &handle);
    return range_of(&core);
}

uint32_t lokhazim_core_raw_write(const uint8_t *, uint64_t, const struct lokhazim_accounts *, const struct lokhazim_handle *, uint32_t, uint8_t);
uint32_t lokhazim_raw_write(
    uint8_t *heap, size_t length, const struct lokhazim_accounts *accounts, struct lokhazim_handle handle, uint32_t at, uint8_t byte)
{
    return lokhazim_core_raw_write(heap, length, accounts, &handle, at, byte);
}

void lokhazim_core_raw_remaining(struct lokhazim_amount_reply *, const uint8_t *, uint64_t, const struct lokhazim_accounts *, uint32_t);
struct lokhazim_amount_reply lokhazim_raw_remaining(const uint8_t *heap, size_t length, const struct lokhazim_accounts *accounts, uint32_t quota)
{
    struct lokhazim_amount_reply reply;
    lokhazim_core_raw_remaining(&reply, heap, length, accounts, quota);
    return reply;
}

uint32_t lokhazim_core_raw_can_release(const uint8_t *, uint64_t, const struct lokhazim_accounts *, uint32_t, const struct lokhazim_handle *);
uint32_t lokhazim_raw_can_release(
    const uint8_t *heap, size_t length, const struct lokhazim_accounts *accounts, uint32_t quota, struct lokhazim_handle handle)
{
    return lokhazim_core_raw_can_release(heap, length, accounts, quota, &handle);
}

void lokhazim_core_raw_list_block(struct core_block *, const uint8_t *, uint64_t, const struct lokhazim_accounts *, uint64_t);
struct lokhazim_block_reply lokhazim_raw_list_block(const uint8_t *heap, size_t length, const struct lokhazim_accounts *accounts, size_t at)
{
    struct core_block core;
    lokhazim_core_raw_list_block(&core, heap, length, accounts, at);
    return block_of(&core);
}

uint32_t lokhazim_core_raw_check(const uint8_t *, uint64_t, const struct lokhazim_accounts *);
uint32_t lokhazim_raw_check(const uint8_t *heap, size_t length, const struct lokhazim_accounts *accounts)
{
    return lokhazim_core_raw_check(heap, length, accounts);
}
