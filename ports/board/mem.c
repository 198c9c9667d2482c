/* SPDX-License-Identifier: Apache-2.0
 * memcpy and its like, which a compiler asks for, where there is no C library. They go word by word if both ends are
 * aligned: counts of instructions would otherwise be those of these loops. */
#include <stddef.h>
#include <stdint.h>

typedef uintptr_t __attribute__((may_alias)) word;
enum { W = sizeof(word) };

void *memcpy(void *restrict to, const void *restrict from, size_t n)
{
    unsigned char *t = to;
    const unsigned char *f = from;
    if (((uintptr_t)t | (uintptr_t)f) % W == 0)
        for (; n >= W; n -= W, t += W, f += W)
            *(word *)t = *(const word *)f;
    for (; n; n--)
        *t++ = *f++;
    return to;
}

void *memmove(void *to, const void *from, size_t n)
{
    unsigned char *t = to;
    const unsigned char *f = from;
    if (t == f || n == 0)
        return to;
    if (t < f) {
        if (((uintptr_t)t | (uintptr_t)f) % W == 0)
            for (; n >= W; n -= W, t += W, f += W)
                *(word *)t = *(const word *)f;
        for (; n; n--)
            *t++ = *f++;
    } else {
        t += n, f += n;
        if (((uintptr_t)t | (uintptr_t)f) % W == 0)
            for (; n >= W; n -= W)
                t -= W, f -= W, *(word *)t = *(const word *)f;
        for (; n; n--)
            *--t = *--f;
    }
    return to;
}

void *memset(void *to, int byte, size_t n)
{
    unsigned char *t = to;
    word all = (unsigned char)byte * (~(word)0 / 255);
    for (; n && (uintptr_t)t % W; n--)
        *t++ = (unsigned char)byte;
    for (; n >= W; n -= W, t += W)
        *(word *)t = all;
    for (; n; n--)
        *t++ = (unsigned char)byte;
    return to;
}

int memcmp(const void *a, const void *b, size_t n)
{
    const unsigned char *x = a, *y = b;
    for (; n; n--, x++, y++)
        if (*x != *y)
            return *x - *y;
    return 0;
}

#ifdef __arm__
/* The names by which the compiler asks for them on ARM. */
void __aeabi_memcpy(void *to, const void *from, size_t n) { memcpy(to, from, n); }
void __aeabi_memcpy4(void *to, const void *from, size_t n) { memcpy(to, from, n); }
void __aeabi_memcpy8(void *to, const void *from, size_t n) { memcpy(to, from, n); }
void __aeabi_memmove(void *to, const void *from, size_t n) { memmove(to, from, n); }
void __aeabi_memmove4(void *to, const void *from, size_t n) { memmove(to, from, n); }
void __aeabi_memmove8(void *to, const void *from, size_t n) { memmove(to, from, n); }
void __aeabi_memset(void *to, size_t n, int byte) { memset(to, byte, n); }
void __aeabi_memset4(void *to, size_t n, int byte) { memset(to, byte, n); }
void __aeabi_memset8(void *to, size_t n, int byte) { memset(to, byte, n); }
void __aeabi_memclr(void *to, size_t n) { memset(to, 0, n); }
void __aeabi_memclr4(void *to, size_t n) { memset(to, 0, n); }
void __aeabi_memclr8(void *to, size_t n) { memset(to, 0, n); }
#endif
