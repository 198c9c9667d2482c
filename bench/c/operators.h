/* SPDX-License-Identifier: Apache-2.0
 * The basic operators of ITU-T G.191 that the kinds need, under their names there, and the codes of G.711. */
#ifndef OPERATORS_H
#define OPERATORS_H
#include <stdint.h>

typedef int16_t word16;
typedef int32_t word32;

enum { WORD16_MIN = INT16_MIN, WORD16_MAX = INT16_MAX };

/* The nearest value of 16 bits, and of 32. */
static inline word16 limit16(word32 v)
{
    return v > WORD16_MAX ? WORD16_MAX : v < WORD16_MIN ? WORD16_MIN : (word16)v;
}

static inline word32 limit32(int64_t v)
{
    return v > INT32_MAX ? INT32_MAX : v < INT32_MIN ? INT32_MIN : (word32)v;
}

static inline word16 add(word16 a, word16 b) { return limit16(a + b); }
static inline word16 sub(word16 a, word16 b) { return limit16(a - b); }
static inline word32 L_add(word32 a, word32 b) { return limit32((int64_t)a + b); }
static inline word32 L_sub(word32 a, word32 b) { return limit32((int64_t)a - b); }
static inline word32 L_mult(word16 a, word16 b) { return limit32(2 * (int64_t)a * b); }
static inline word32 L_mac(word32 v, word16 a, word16 b) { return L_add(v, L_mult(a, b)); }
static inline word32 L_msu(word32 v, word16 a, word16 b) { return L_sub(v, L_mult(a, b)); }
static inline word32 L_shl1(word32 v) { return limit32(2 * (int64_t)v); } /* L_shl(v, 1) */
static inline word16 extract_h(word32 v) { return (word16)(v >> 16); }
static inline word16 round16(word32 v) { return extract_h(L_add(v, 0x8000)); } /* round of G.191 */

/* v times 2 k, where k is a cosine in Q15: what a resonator feeds back. */
static inline word16 times_twice(word16 k, word16 v) { return extract_h(L_shl1(L_mult(k, v))); }

/* The magnitude of a sample as the reference code of G.711 takes it: the one's complement of a negative one. */
static inline int magnitude(word16 x) { return x < 0 ? -1 - x : x; }

static inline int log2_of(int v) { return 31 - __builtin_clz((unsigned)v); }

static inline int encode_a(word16 x)
{
    int v = magnitude(x) >> 4, segment = v < 16 ? 0 : log2_of(v) - 3;
    int step = segment ? (v >> (segment - 1)) & 15 : v;
    return ((x < 0 ? 0 : 128) + 16 * segment + step) ^ 0x55;
}

static inline int encode_mu(word16 x)
{
    int v = (magnitude(x) >> 2) + 33;
    if (v > 8191)
        v = 8191;
    int segment = log2_of(v) - 5, step = (v >> (segment + 1)) & 15;
    return (x < 0 ? 0 : 128) + 127 - (16 * segment + step);
}

/* The middle of the interval that has the code. */
static inline word16 decode_a(int code)
{
    code ^= 0x55;
    int segment = (code >> 4) & 7, step = code & 15;
    int v = segment ? (16 << (segment - 1)) * (16 + step) + (8 << (segment - 1)) : 16 * step + 8;
    return (word16)(code & 128 ? v : -v);
}

static inline word16 decode_mu(int code)
{
    int plain = 127 - (code & 127), segment = plain >> 4, step = plain & 15;
    int v = (128 << segment) + (8 << segment) * step + (4 << segment) - 132;
    return (word16)(code & 128 ? v : -v);
}
#endif
