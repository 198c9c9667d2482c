/* SPDX-License-Identifier: Apache-2.0
 * The five kinds as quick as C gets with the same words: sums by vectors where none of them can saturate, half sums where they can,
 * branches to the step in order for what hardly ever happens, and the codes of eight samples at once. It takes a processor with
 * SSE4.1, and uses AVX2 where the compiler may. */
#include "kernels.h"
#include <immintrin.h>
#include <stdlib.h>
#include <string.h>

#define RARE(x) __builtin_expect(!!(x), 0)
#define APART __attribute__((noinline, cold))
/* For functions whose constant arguments have to reach their loops, so that their vectors stay in registers. */
#define UNFOLDED static inline __attribute__((always_inline))

/* ---- vectors of 32-bit lanes ------------------------------------------------------------------- */

#if defined __AVX2__
typedef __m256i vec;
enum { LANES = 8 };
static inline vec load(const word16 *p) { return _mm256_loadu_si256((const vec *)p); }
static inline vec load_wide(const word16 *p) { return _mm256_cvtepi16_epi32(_mm_loadu_si128((const __m128i *)p)); }
static inline vec all(word32 v) { return _mm256_set1_epi32(v); }
static inline vec plus(vec a, vec b) { return _mm256_add_epi32(a, b); }
static inline vec sum_pairs(vec a, vec b) { return _mm256_madd_epi16(a, b); }
static inline vec clamp(vec v, vec low, vec high) { return _mm256_max_epi32(_mm256_min_epi32(v, high), low); }
static inline void store(word32 *p, vec v) { _mm256_storeu_si256((vec *)p, v); }

/* The sum over the lanes of each of the vectors. */
static inline vec sum_lanes(const vec s[LANES])
{
    vec a = _mm256_hadd_epi32(_mm256_hadd_epi32(s[0], s[1]), _mm256_hadd_epi32(s[2], s[3]));
    vec b = _mm256_hadd_epi32(_mm256_hadd_epi32(s[4], s[5]), _mm256_hadd_epi32(s[6], s[7]));
    return plus(_mm256_permute2x128_si256(a, b, 0x20), _mm256_permute2x128_si256(a, b, 0x31));
}

/* The words of sums in Q30, rounded to Q15. */
static inline void store_rounded(word16 *p, vec s)
{
    s = _mm256_srai_epi32(plus(s, all(1 << 14)), 15);
    _mm_storeu_si128((__m128i *)p, _mm_packs_epi32(_mm256_castsi256_si128(s), _mm256_extracti128_si256(s, 1)));
}
#elif defined __SSE4_1__
typedef __m128i vec;
enum { LANES = 4 };
static inline vec load(const word16 *p) { return _mm_loadu_si128((const vec *)p); }
static inline vec load_wide(const word16 *p) { return _mm_cvtepi16_epi32(_mm_loadl_epi64((const vec *)p)); }
static inline vec all(word32 v) { return _mm_set1_epi32(v); }
static inline vec plus(vec a, vec b) { return _mm_add_epi32(a, b); }
static inline vec sum_pairs(vec a, vec b) { return _mm_madd_epi16(a, b); }
static inline vec clamp(vec v, vec low, vec high) { return _mm_max_epi32(_mm_min_epi32(v, high), low); }
static inline void store(word32 *p, vec v) { _mm_storeu_si128((vec *)p, v); }

static inline vec sum_lanes(const vec s[LANES])
{
    return _mm_hadd_epi32(_mm_hadd_epi32(s[0], s[1]), _mm_hadd_epi32(s[2], s[3]));
}

static inline void store_rounded(word16 *p, vec s)
{
    s = _mm_srai_epi32(plus(s, all(1 << 14)), 15);
    _mm_storel_epi64((vec *)p, _mm_packs_epi32(s, s));
}
#else
#error "best.c takes -march=x86-64-v2 or more"
#endif
enum { WORDS = 2 * LANES }; /* of a vector of words */

/* ---- FIR and decimator ------------------------------------------------------------------------- */

/* The output at line[at], each step saturated. */
static word16 fir_at(const word16 *c, int taps, const word16 *line, int at)
{
    word32 sum = 0;
    for (int k = 0; k < taps; k++)
        sum = L_mac(sum, c[k], line[at - k]);
    return round16(sum);
}

/* Whether no sum of products of these coefficients and samples reaches 2^30: then none saturates in Q31. */
static int is_bounded(const word16 *c, int taps, const word16 *line, int n)
{
    int64_t sum = 0;
    int loudest = 0;
    for (int k = 0; k < taps; k++)
        sum += abs(c[k]);
    if (sum < 1 << 15)
        return 1;
    for (int i = 0; i < n; i++) {
        int v = abs(line[i]);
        loudest = v > loudest ? v : loudest;
    }
    return sum * loudest < 1 << 30;
}

/* n outputs, `by` samples apart, of sums that can't saturate: as many windows at once as there are lanes share each load of the
 * coefficients, which stand in reverse with zeros behind them. What the last vector has too many is computed and dropped. */
UNFOLDED void fir_windows(const word16 *c, int taps, const word16 *line, int by, int n, word16 *y)
{
    word16 reversed[TAPS_MAX + WORDS] = {0};
    for (int k = 0; k < taps; k++)
        reversed[k] = c[taps - 1 - k];
    for (int i = 0; i < n; i += LANES) {
        const word16 *window = line + i * by;
        vec s[LANES] = {0};
        for (int k = 0; k < taps; k += WORDS) {
            vec t = load(reversed + k);
            for (int q = 0; q < LANES; q++)
                s[q] = plus(s[q], sum_pairs(t, load(window + q * by + k)));
        }
        if (n - i >= LANES) {
            store_rounded(y + i, sum_lanes(s));
        } else {
            word16 last[WORDS];
            store_rounded(last, sum_lanes(s));
            memcpy(y + i, last, (size_t)(n - i) * sizeof *y);
        }
    }
}

/* Half sums. Let s be the sum in Q31, saturated at each step. Beside it goes h with 2h - 1 <= s <= 2h: a step is
 * h = clamp(h + c x, -2^30, 2^30), which neither doubles nor overflows, as long as no c is -32768. Then (h + 2^14) >> 15 is what s
 * rounds to, but where h + 2^14 is a multiple of 2^15, once in 32,768: that output is summed in order.
 * Here are `side` vectors of outputs side by side, from the one at line[taps - 1] on; `y` gets n of them. */
UNFOLDED void fir_half(const word16 *c, int taps, const word16 *line, int side, int n, word16 *y)
{
    const vec high = all(1 << 30), low = all(-(1 << 30));
    vec h[8] = {0};
    word32 halves[8 * LANES];
    int unsure = 0;
    for (int k = 0; k < taps; k++) {
        const word16 *x = line + taps - 1 - k;
        vec t = all((uint16_t)c[k]); /* by the pair of a sample and its sign: c x + 0 */
        for (int q = 0; q < side; q++)
            h[q] = clamp(plus(h[q], sum_pairs(load_wide(x + LANES * q), t)), low, high);
    }
    for (int q = 0; q < side; q++)
        store(halves + LANES * q, plus(h[q], all(1 << 14)));
    for (int i = 0; i < n; i++) {
        y[i] = limit16(halves[i] >> 15);
        unsure |= (halves[i] & 32767) == 0;
    }
    for (int i = 0; unsure && i < n; i++)
        if ((halves[i] & 32767) == 0)
            y[i] = fir_at(c, taps, line, taps - 1 + i);
}

static int has_least(const word16 *c, int n)
{
    for (int k = 0; k < n; k++)
        if (c[k] == WORD16_MIN)
            return 1;
    return 0;
}

void fir(const word16 *c, int taps, const word16 *line, int n, word16 *y)
{
    int i = 0;
    if (is_bounded(c, taps, line, taps - 1 + n)) {
        fir_windows(c, taps, line, 1, n, y);
        return;
    }
    if (has_least(c, taps)) {
        for (; i < n; i++)
            y[i] = fir_at(c, taps, line, taps - 1 + i);
        return;
    }
    for (; i + 8 * LANES <= n; i += 8 * LANES)
        fir_half(c, taps, line + i, 8, 8 * LANES, y + i);
    for (; i < n; i += LANES)
        fir_half(c, taps, line + i, 1, n - i < LANES ? n - i : LANES, y + i);
}

int decimate(const word16 *c, int taps, int by, int phase, const word16 *line, int n, word16 *y)
{
    int first = by - 1 - phase, count = (phase + n) / by;
    if (is_bounded(c, taps, line, taps - 1 + n))
        fir_windows(c, taps, line + first, by, count, y);
    else
        for (int i = 0; i < count; i++)
            y[i] = fir_at(c, taps, line, taps - 1 + first + i * by);
    return count;
}

/* ---- biquad ------------------------------------------------------------------------------------ */

static APART word16 biquad_in_order(const word16 c[5], word16 x, word16 x1, word16 x2, word16 y1, word16 y2)
{
    word32 sum = L_mult(c[0], x);
    sum = L_mac(sum, c[1], x1);
    sum = L_mac(sum, c[2], x2);
    sum = L_msu(sum, c[3], y1);
    sum = L_msu(sum, c[4], y2);
    return round16(L_shl1(sum));
}

void biquad(const word16 c[5], word16 past[4], const word16 *x, int n, word16 *y)
{
    const int in_order = has_least(c, 5); /* else twice a coefficient times a sample fits 32 bits */
    const word32 b0 = 2 * c[0], b1 = 2 * c[1], b2 = 2 * c[2], a1 = 2 * c[3], a2 = 2 * c[4];
    word16 x1 = past[0], x2 = past[1], y1 = past[2], y2 = past[3];
    for (int i = 0; i < n; i++) {
        word32 sum = 0;
        word16 v;
        /* Each overflow is a jump of its own, which no step waits for. */
        if (RARE(in_order || __builtin_add_overflow(b0 * x[i], b1 * x1, &sum) || __builtin_add_overflow(sum, b2 * x2, &sum) ||
                 __builtin_sub_overflow(sum, a1 * y1, &sum) || __builtin_sub_overflow(sum, a2 * y2, &sum) ||
                 __builtin_add_overflow(sum, sum, &sum) || __builtin_add_overflow(sum, 0x8000, &sum)))
            v = biquad_in_order(c, x[i], x1, x2, y1, y2);
        else
            v = extract_h(sum);
        x2 = x1, x1 = x[i];
        y2 = y1, y1 = v;
        y[i] = v;
    }
    past[0] = x1, past[1] = x2, past[2] = y1, past[3] = y2;
}

/* ---- tone -------------------------------------------------------------------------------------- */

static APART word16 resonate_in_order(struct tone p, word16 x, word16 v1, word16 v2)
{
    return sub(add((word16)(x >> p.shift), times_twice(p.k, v1)), v2);
}

static inline unsigned beyond_word(int v) { return (unsigned)(v + 32768) > 65535; }

int tone(struct tone p, word16 state[3], const word16 *x, int n, word16 *levels)
{
    int count = state[0], v1 = state[1], v2 = state[2], made = 0;
    for (int i = 0; i < n;) {
        int left = p.frame - count, run = left < n - i ? left : n - i;
        for (int end = i + run; i < end; i++) {
            int in = x[i] >> p.shift, turned = (p.k * v1) >> 14, sum = in + turned, v = (in - v2) + turned;
            if (RARE(beyond_word(turned) | beyond_word(sum) | beyond_word(v)))
                v = resonate_in_order(p, x[i], (word16)v1, (word16)v2);
            v2 = v1, v1 = v;
        }
        count += run;
        if (count == p.frame) {
            word16 a = (word16)v1, b = (word16)v2;
            levels[made++] = extract_h(L_msu(L_mac(L_mult(a, a), b, b), times_twice(p.k, a), b));
            count = v1 = v2 = 0;
        }
    }
    state[0] = (word16)count, state[1] = (word16)v1, state[2] = (word16)v2;
    return made;
}

/* ---- G.711 ------------------------------------------------------------------------------------- */

/* Sixteen times the exponent of each number and the next four bits below its highest one: as a float it has both side by side. */
static inline __m128i segments_and_steps(__m128i v)
{
    const __m128i low = _mm_castps_si128(_mm_cvtepi32_ps(_mm_cvtepu16_epi32(v)));
    const __m128i high = _mm_castps_si128(_mm_cvtepi32_ps(_mm_unpackhi_epi16(v, _mm_setzero_si128())));
    return _mm_sub_epi16(_mm_packus_epi32(_mm_srli_epi32(low, 19), _mm_srli_epi32(high, 19)), _mm_set1_epi16(16 * 127));
}

/* The codes of eight samples. */
static inline __m128i encode_mu_8(__m128i x)
{
    const __m128i sign = _mm_srai_epi16(x, 15), magnitudes = _mm_xor_si128(x, sign);
    const __m128i v = _mm_min_epi16(_mm_add_epi16(_mm_srli_epi16(magnitudes, 2), _mm_set1_epi16(33)), _mm_set1_epi16(8191));
    const __m128i plain = _mm_sub_epi16(segments_and_steps(v), _mm_set1_epi16(16 * 5));
    return _mm_add_epi16(_mm_sub_epi16(_mm_set1_epi16(255), plain), _mm_and_si128(sign, _mm_set1_epi16(-128)));
}

static inline __m128i encode_a_8(__m128i x)
{
    const __m128i sign = _mm_srai_epi16(x, 15), v = _mm_srli_epi16(_mm_xor_si128(x, sign), 4);
    const __m128i plain = _mm_sub_epi16(segments_and_steps(v), _mm_set1_epi16(16 * 3));
    const __m128i code = _mm_blendv_epi8(plain, v, _mm_cmplt_epi16(v, _mm_set1_epi16(16)));
    return _mm_xor_si128(_mm_or_si128(code, _mm_andnot_si128(sign, _mm_set1_epi16(128))), _mm_set1_epi16(0x55));
}

void encode(int law, const word16 *x, int n, word16 *codes)
{
    int i = 0;
    for (; i + 8 <= n; i += 8) {
        const __m128i samples = _mm_loadu_si128((const __m128i *)(x + i));
        _mm_storeu_si128((__m128i *)(codes + i), law ? encode_mu_8(samples) : encode_a_8(samples));
    }
    for (; i < n; i++)
        codes[i] = (word16)(law ? encode_mu(x[i]) : encode_a(x[i]));
}
