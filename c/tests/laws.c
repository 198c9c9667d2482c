/* SPDX-License-Identifier: Apache-2.0
 * What needs no host: G.711 over every sample and every code, and operators and a filter over blocks, beside sums written out here. */
#include "rokdaum.h"
#include "wanted.h"

static int16_t samples[65536], back[65536];
static uint8_t codes[65536];

static int16_t saturated(long n)
{
    return (int16_t)(n > 32767 ? 32767 : n < -32768 ? -32768 : n);
}

static int64_t saturated_long(int64_t n)
{
    return n > INT32_MAX ? INT32_MAX : n < INT32_MIN ? INT32_MIN : n;
}

/* A sample divided by 2 to the power of n, and rounded down. */
static int16_t divided(int16_t x, int n)
{
    long all = 1L << n;
    return (int16_t)(x >= 0 ? x / all : -((-(long)x + all - 1) / all));
}

/* Differences, shifts and sums of products over a block, beside sums written out here. */
static void more_blocks(void)
{
    enum { N = 1000 };
    static int16_t a[N], b[N], out[N];
    int32_t sum = 77;
    int64_t wanted = -5;
    int differences = 0, saturations = 0;
    for (int i = 0; i < N; i++) {
        a[i] = (int16_t)(i * 2654435761u >> 9);
        b[i] = (int16_t)(i * 40503u >> 2);
    }
    want("sub over a block", rokdaum_sub_block(a, b, out, N), ROKDAUM_OK);
    for (int i = 0; i < N; i++)
        differences += out[i] != saturated((long)a[i] - b[i]);
    want("differences that are wrong", differences, 0);
    for (int n = -17; n <= 17; n++) {
        int left = 0, right = 0;
        want("shl over a block", rokdaum_shl_block(a, (int16_t)n, out, N), ROKDAUM_OK);
        for (int i = 0; i < N; i++)
            left += out[i] != (n >= 0 ? saturated((long)a[i] * (1L << n)) : divided(a[i], -n));
        want("samples that are shifted to the left otherwise", left, 0);
        want("shr over a block", rokdaum_shr_block(a, (int16_t)n, out, N), ROKDAUM_OK);
        for (int i = 0; i < N; i++)
            right += out[i] != (n >= 0 ? divided(a[i], n) : saturated((long)a[i] * (1L << -n)));
        want("samples that are shifted to the right otherwise", right, 0);
    }
    want("L_mac over a block", rokdaum_l_mac_block(-5, a, b, N, &sum), ROKDAUM_OK);
    for (int i = 0; i < N; i++) {
        int64_t next = wanted + saturated_long(2 * (int64_t)a[i] * b[i]);
        wanted = saturated_long(next);
        saturations += wanted != next;
    }
    want("the sum of the products", sum, (long)wanted);
    want("it saturated on the way", saturations > 0, 1);
    want("L_mac over nothing", rokdaum_l_mac_block(1234, 0, 0, 0, &sum), ROKDAUM_OK);
    want("the sum of nothing", sum, 1234);
}

static void blocks(void)
{
    enum { N = 1024, TAPS = 5, PAST = ROKDAUM_COEFFICIENTS - 1 };
    static int16_t a[N], b[N], out[N], line[PAST + N];
    static const int16_t taps[TAPS] = {2000, -3000, 12000, -3000, 32767};
    int sums = 0, products = 0, outputs = 0;
    for (int i = 0; i < N; i++) {
        a[i] = (int16_t)(i * 2654435761u >> 7);
        b[i] = (int16_t)(i * 40503u >> 3);
    }
    want("add over a block", rokdaum_add_block(a, b, out, N), ROKDAUM_OK);
    for (int i = 0; i < N; i++)
        sums += out[i] != saturated((long)a[i] + b[i]);
    want("sums that are wrong", sums, 0);
    want("mult over a block", rokdaum_mult_block(-20000, a, out, N), ROKDAUM_OK);
    for (int i = 0; i < N; i++)
        products += out[i] != (int16_t)((long)a[i] * -20000 >> 15);
    want("products that are wrong", products, 0);
    for (int i = 0; i < PAST + N; i++)
        line[i] = (int16_t)(i * 2654435761u >> 18);
    want("a filter over a block", rokdaum_fir(taps, TAPS, line, PAST + N, out, N), ROKDAUM_OK);
    for (int i = 0; i < N; i++) {
        int64_t sum = 0;
        for (int k = 0; k < TAPS; k++) {
            sum += 2 * (int64_t)taps[k] * line[TAPS - 1 + i - k];
            sum = sum > INT32_MAX ? INT32_MAX : sum < INT32_MIN ? INT32_MIN : sum;
        }
        sum = sum + 0x8000 > INT32_MAX ? INT32_MAX : sum + 0x8000;
        outputs += out[i] != (int16_t)(sum >> 16);
    }
    want("outputs that are wrong", outputs, 0);
    want("no coefficient", rokdaum_fir(taps, 0, line, PAST + N, out, N), ROKDAUM_BAD_LENGTH);
    want("65 coefficients", rokdaum_fir(a, 65, line, PAST + N, out, N), ROKDAUM_BAD_LENGTH);
    want("a short line", rokdaum_fir(taps, TAPS, line, PAST + N - 1, out, N), ROKDAUM_BAD_LENGTH);
    want("a line of nothing", rokdaum_fir(taps, TAPS, 0, 0, out, 0), ROKDAUM_BAD_LENGTH);
    want("a long block", rokdaum_fir(taps, TAPS, line, PAST + N, out, N + 1), ROKDAUM_BAD_LENGTH);
    want("null line", rokdaum_fir(taps, TAPS, 0, PAST + N, out, N), ROKDAUM_NULL);
    want("null block", rokdaum_add_block(a, 0, out, N), ROKDAUM_NULL);
}

int main(void)
{
    blocks();
    more_blocks();
    for (int i = 0; i < 65536; i++)
        samples[i] = (int16_t)(i - 32768);
    for (int law = ROKDAUM_A_LAW; law <= ROKDAUM_MU_LAW; law++) {
        want("encode", rokdaum_g711_encode((rokdaum_law)law, samples, codes, 65536), ROKDAUM_OK);
        want("decode", rokdaum_g711_decode((rokdaum_law)law, codes, back, 65536), ROKDAUM_OK);
        int far = 0, falls = 0;
        for (int i = 0; i < 65536; i++) {
            int sample = samples[i], off = back[i] > sample ? back[i] - sample : sample - back[i];
            int size = sample < 0 ? -sample : sample;
            far += off > (size < 512 ? 16 : size / 16) && size < 32000;
            falls += i > 0 && back[i] < back[i - 1];
        }
        want("samples that come back further off than half a step", far, 0);
        want("samples where decoding falls", falls, 0);
        want("zero", codes[32768], law == ROKDAUM_A_LAW ? 0xd5 : 0xff);
        want("the largest", codes[65535], law == ROKDAUM_A_LAW ? 0xaa : 0x80);
        want("the smallest", codes[0], law == ROKDAUM_A_LAW ? 0x2a : 0x00);
    }
    return told();
}
