/* SPDX-License-Identifier: Apache-2.0
 * A program without the C library: it brings memcpy, memmove and memset, and memory of its own. It ends with status 0 where a filter
 * gave what it must. */
#include "rokdaum.h"

void *memcpy(void *restrict to, const void *restrict from, size_t n)
{
    unsigned char *t = to;
    const unsigned char *f = from;
    for (size_t k = 0; k < n; k++)
        t[k] = f[k];
    return to;
}

void *memmove(void *to, const void *from, size_t n)
{
    unsigned char *t = to;
    const unsigned char *f = from;
    if (t < f)
        for (size_t k = 0; k < n; k++)
            t[k] = f[k];
    else
        for (size_t k = n; k > 0; k--)
            t[k - 1] = f[k - 1];
    return to;
}

void *memset(void *to, int byte, size_t n)
{
    unsigned char *t = to;
    for (size_t k = 0; k < n; k++)
        t[k] = (unsigned char)byte;
    return to;
}

static _Alignas(16) unsigned char arena[256 * 1024];
static size_t taken;

static void *allocate(void *context, size_t size, size_t align)
{
    (void)context;
    size_t at = (taken + align - 1) / align * align;
    if (size > sizeof arena - at)
        return 0;
    taken = at + size;
    return arena + at;
}

static void release(void *context, void *memory)
{
    (void)context, (void)memory;
}

static int filters(void)
{
    static const rokdaum_options options = {4096, 4096, 4096, 1, 0, 0};
    static const rokdaum_allocator allocator = {allocate, release, 0};
    static const int16_t average[2] = {16384, 16384}, in[4] = {100, 200, 300, 400}, wanted[4] = {50, 150, 250, 350};
    static const uint8_t members[1] = {0};
    rokdaum host = ROKDAUM_CLOSED;
    int16_t out[4];
    uint32_t n = 0;
    if (rokdaum_open(&host, &options) != ROKDAUM_NO_MEMORY)
        return 1;
    if (rokdaum_open_with(&host, &options, &allocator) || rokdaum_create(&host, 0, ROKDAUM_FIR, 0, average, 2, 0)
        || rokdaum_chain(&host, 0, members, 1) || rokdaum_feed(&host, 0, in, 4, out, 4, &n) || rokdaum_close(&host))
        return 2;
    for (uint32_t k = 0; k < 4; k++)
        if (n != 4 || out[k] != wanted[k])
            return 3;
    return 0;
}

/* The stack is aligned here as before a call, and not as after one. */
__attribute__((force_align_arg_pointer)) void _start(void)
{
    long status = filters();
    __asm__ volatile("syscall" : : "a"(231L), "D"(status) : "rcx", "r11", "memory");
    __builtin_unreachable();
}
