/* memcpy, memmove and memset, for boards without a C library. On ARM the compiler calls them by the names of the EABI as well. */
#include <stddef.h>
#include <stdint.h>

void *memcpy(void *restrict to, const void *restrict from, size_t bytes);
void *memmove(void *to, const void *from, size_t bytes);
void *memset(void *to, int byte, size_t bytes);

/* Whole words where both addresses are multiples of 4, then bytes. The file is compiled with -fno-builtin and -fno-tree-loop-distribute-patterns, or the
 * loops would become calls of the functions themselves. */
void *memcpy(void *restrict to, const void *restrict from, size_t bytes)
{
    uint8_t *out = to;
    const uint8_t *in = from;
    if ((((uintptr_t)out | (uintptr_t)in) & 3) == 0) {
        for (; bytes >= 4; bytes -= 4, out += 4, in += 4) {
            *(uint32_t *)(void *)out = *(const uint32_t *)(const void *)in;
        }
    }
    while (bytes-- > 0) {
        *out++ = *in++;
    }
    return to;
}

void *memmove(void *to, const void *from, size_t bytes)
{
    uint8_t *out = to;
    const uint8_t *in = from;
    if ((uintptr_t)to <= (uintptr_t)from || (uintptr_t)to - (uintptr_t)from >= bytes) {
        return memcpy(to, from, bytes);
    }
    while (bytes-- > 0) {
        out[bytes] = in[bytes];
    }
    return to;
}

void *memset(void *to, int byte, size_t bytes)
{
    uint8_t *out = to;
    const uint32_t word = (uint8_t)byte * 0x01010101u;
    if (((uintptr_t)out & 3) == 0) {
        for (; bytes >= 4; bytes -= 4, out += 4) {
            *(uint32_t *)(void *)out = word;
        }
    }
    while (bytes-- > 0) {
        *out++ = (uint8_t)byte;
    }
    return to;
}

#ifdef __ARM_EABI__
#define COPY(name, call) \
    void name(void *to, const void *from, size_t bytes); \
    void name(void *to, const void *from, size_t bytes) { call(to, from, bytes); }
#define FILL(name) \
    void name(void *to, size_t bytes, int byte); \
    void name(void *to, size_t bytes, int byte) { memset(to, byte, bytes); }
#define CLEAR(name) \
    void name(void *to, size_t bytes); \
    void name(void *to, size_t bytes) { memset(to, 0, bytes); }
COPY(__aeabi_memcpy, memcpy)
COPY(__aeabi_memcpy4, memcpy)
COPY(__aeabi_memcpy8, memcpy)
COPY(__aeabi_memmove, memmove)
COPY(__aeabi_memmove4, memmove)
COPY(__aeabi_memmove8, memmove)
FILL(__aeabi_memset)
FILL(__aeabi_memset4)
FILL(__aeabi_memset8)
CLEAR(__aeabi_memclr)
CLEAR(__aeabi_memclr4)
CLEAR(__aeabi_memclr8)
#endif
