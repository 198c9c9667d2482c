/* SPDX-License-Identifier: Apache-2.0
 * Gains, meters of energy, detectors of digits, echo cancellers, G.726, generators and detectors of voice activity, beside what is written out here, and each kind once. */
#include "rokdaum.h"
#include "wanted.h"
#include <math.h>
#include <string.h>

enum { N = 1024, FRAME = 100, SHIFT = 3 };

static rokdaum host = ROKDAUM_CLOSED;
static int16_t in[N], out[N], tones[N], words[72];
static uint32_t n;

static void fill(void)
{
    for (int i = 0; i < N; i++)
        in[i] = (int16_t)(i * 2654435761u >> 11);
}

/* Creates an instance with the channel of its number. */
static void make(uint8_t i, rokdaum_kind kind, const int16_t *parameters, size_t count)
{
    want("create", rokdaum_create(&host, i, kind, 0, parameters, count, 0), ROKDAUM_OK);
    want("chain", rokdaum_chain(&host, i, &i, 1), ROKDAUM_OK);
}

static long amplified(long factor, long x)
{
    long doubled = (factor * x * 16 + 0x8000) >> 16; /* Q12 times Q15 in Q31, rounded; nothing saturates below 2^31 */
    return doubled > 32767 ? 32767 : doubled < -32768 ? -32768 : doubled;
}

static void gains(void)
{
    static const int16_t factors[] = {4096, -2048, 1, 0, 32767, -32768};
    make(0, ROKDAUM_GAIN, factors, 1);
    for (size_t k = 0; k < sizeof factors / sizeof *factors; k++) {
        int wrong = 0;
        want("set a factor", rokdaum_set(&host, 0, factors + k, 1), ROKDAUM_OK);
        want("feed", rokdaum_feed(&host, 0, in, N, out, N, &n), ROKDAUM_OK);
        want("one for each", n, N);
        for (int i = 0; i < N; i++)
            wrong += out[i] != amplified(factors[k], in[i]);
        want("products that are wrong", wrong, 0);
        want("get", rokdaum_get(&host, 0, words, 72, &n), ROKDAUM_OK);
        want("the factor in force", n == 1 && words[0] == factors[k], 1);
    }
    want("set two factors", rokdaum_set(&host, 0, factors, 2), ROKDAUM_COMMAND);
}

static void levels(void)
{
    static const int16_t parameters[2] = {FRAME, SHIFT};
    int wrong = 0;
    make(1, ROKDAUM_LEVEL, parameters, 2);
    want("feed", rokdaum_feed(&host, 1, in, N, out, N, &n), ROKDAUM_OK);
    want("one for each frame", n, N / FRAME);
    for (int f = 0; f < N / FRAME; f++) {
        int64_t energy = 0;
        for (int i = f * FRAME; i < (f + 1) * FRAME; i++) {
            int64_t x = in[i] >> SHIFT;
            energy += 2 * x * x;
            energy = energy > INT32_MAX ? INT32_MAX : energy;
        }
        wrong += out[f] != energy >> 16;
    }
    want("levels that are wrong", wrong, 0);
    want("get", rokdaum_get(&host, 1, words, 72, &n), ROKDAUM_OK);
    want("the samples of the frame so far", n == 1 && words[0] == N % FRAME, 1);
    want("set", rokdaum_set(&host, 1, parameters, 2), ROKDAUM_COMMAND);
}

/* Each of the sixteen keys as one tone of each band, in four frames: the frames between the first and the last have its code. */
static void digits(uint8_t i, const int16_t *parameters)
{
    static const double low[4] = {697, 770, 852, 941}, high[4] = {1209, 1336, 1477, 1633};
    const double turn = 2 * 3.14159265358979323846 / 8000;
    make(i, ROKDAUM_DTMF, parameters, 7);
    for (int key = 0; key < 16; key++) {
        int frames = 4 * parameters[0];
        for (int k = 0; k < frames; k++)
            tones[k] = (int16_t)(5000 * sin(low[key / 4] * turn * k) + 5000 * sin(high[key % 4] * turn * k));
        want("feed", rokdaum_feed(&host, i, tones, (size_t)frames, out, N, &n), ROKDAUM_OK);
        want("a code for each frame", n, 4);
        want("the key", out[1], key);
        want("the key, again", out[2], key);
        for (int k = 0; k < frames; k++)
            tones[k] = 0;
        want("feed nothing", rokdaum_feed(&host, i, tones, (size_t)frames, out, N, &n), ROKDAUM_OK);
        want("no key", out[3], -1);
    }
}

/* The far end comes back two samples later and at half its level: after a second hardly any of it is left, and the near end is heard. */
static void echoes(void)
{
    static const int16_t parameters[4] = {16, 16384, 16384, 240};
    static int16_t far[N / 2];
    int64_t left = 0;
    make(4, ROKDAUM_ECHO, parameters, 4);
    want("silence isn't a parameter", rokdaum_create(&host, 5, ROKDAUM_ECHO, 0, (const int16_t[]){0, 1, 1, 1}, 4, 0), ROKDAUM_PARAMS);
    for (int block = 0; block < 32; block++) {
        left = 0;
        for (int i = 0; i < N / 2; i++) {
            int16_t x = (int16_t)((int32_t)((uint32_t)(block * (N / 2) + i) * 2654435761u) >> 18);
            int16_t echo = i < 2 ? (int16_t)(far[N / 2 - 2 + i] / 2) : (int16_t)(far[i - 2] / 2);
            tones[2 * i] = x;
            tones[2 * i + 1] = echo;
            far[i] = x;
        }
        want("feed pairs", rokdaum_feed(&host, 4, tones, N, out, N, &n), ROKDAUM_OK);
        want("one for each pair", n, N / 2);
        for (int i = 0; i < N / 2; i++)
            left += (int64_t)out[i] * out[i];
    }
    want("the echo is gone: less than 4 of 2,000 on the average", left < 16 * N / 2, 1);
    for (int i = 0; i < N; i++)
        tones[i] = (int16_t)(i % 2 ? i : 0);
    want("feed the near end alone", rokdaum_feed(&host, 4, tones, N, out, N, &n), ROKDAUM_OK);
    want("the near end is as it was", out[N / 2 - 1], N - 1);
    want("set", rokdaum_set(&host, 4, parameters, 4), ROKDAUM_COMMAND);
}

/* A tone through an encoder and a decoder at each rate: what is lost is less the more bits a code has. */
static void codes(void)
{
    static const int16_t rates[4] = {16, 24, 32, 40};
    static const int bits[4] = {2, 3, 4, 5};
    static int16_t code[N];
    int64_t before = INT64_MAX;
    for (int i = 0; i < N; i++)
        in[i] = (int16_t)(8000 * sin(2 * 3.14159265358979323846 * 440 / 8000 * i));
    for (int r = 0; r < 4; r++) {
        const uint8_t to = (uint8_t)(5 + 2 * r), from = (uint8_t)(to + 1);
        int64_t lost = 0;
        int wide = 0;
        make(to, ROKDAUM_ADPCM, (const int16_t[]){rates[r], 0}, 2);
        make(from, ROKDAUM_ADPCM, (const int16_t[]){rates[r], 1}, 2);
        want("encode", rokdaum_feed(&host, to, in, N, code, N, &n), ROKDAUM_OK);
        want("decode", rokdaum_feed(&host, from, code, N, out, N, &n), ROKDAUM_OK);
        for (int i = 0; i < N; i++) {
            wide += code[i] < 0 || code[i] >> bits[r] != 0;
            lost += i < N / 2 ? 0 : (int64_t)(out[i] - in[i]) * (out[i] - in[i]);
        }
        want("codes that are too wide", wide, 0);
        want("less is lost than by fewer bits", lost < before, 1);
        before = lost;
        want("get", rokdaum_get(&host, from, words, 72, &n), ROKDAUM_OK);
        want("its parameters", n == 2 && words[0] == rates[r] && words[1] == 1, 1);
        want("unchain", rokdaum_unchain(&host, to), ROKDAUM_OK);
        want("unchain", rokdaum_unchain(&host, from), ROKDAUM_OK);
    }
    want("hardly anything is lost by five bits", before < (int64_t)N / 2 * 100 * 100, 1);
    want("no such rate", rokdaum_create(&host, 40, ROKDAUM_ADPCM, 0, (const int16_t[]){48, 0}, 2, 0), ROKDAUM_PARAMS);
}

/* 100 samples of 440 Hz, 50 of the input, three times over; and the input alone from then on. */
static void signals(void)
{
    static const int16_t parameters[7] = {30831, 2775, 0, 0, 100, 50, 3}; /* 8192 sin and 32768 cos of 2 pi 440 / 8000 */
    int wrong = 0, far_off = 0;
    make(15, ROKDAUM_SIGNAL, parameters, 7);
    for (int i = 0; i < N; i++)
        in[i] = (int16_t)(i + 1);
    want("feed", rokdaum_feed(&host, 15, in, N, out, N, &n), ROKDAUM_OK);
    want("one for each", n, N);
    for (int i = 0; i < N; i++)
        if (i < 450 && i % 150 < 100)
            far_off += fabs(8192 * sin(2 * 3.14159265358979323846 * 440 / 8000 * (i % 150)) - out[i]) > 40;
        else
            wrong += out[i] != in[i];
    want("samples that aren't the tone", far_off, 0);
    want("samples that aren't the input", wrong, 0);
    want("get", rokdaum_get(&host, 15, words, 72, &n), ROKDAUM_OK);
    want("its parameters", n == 7 && !memcmp(words, parameters, sizeof parameters), 1);
}

/* Six quiet frames of 64 samples, four loud ones, and six quiet ones, of which two count by the hangover. */
static void activities(void)
{
    static const int16_t parameters[6] = {64, 6, 3, 6, 320, 2};
    int wrong = 0;
    make(13, ROKDAUM_ACTIVITY, parameters, 6);
    for (int i = 0; i < N; i++)
        in[i] = (int16_t)((i / 64 >= 6 && i / 64 < 10 ? 8000 : 50) * (i % 2 ? 1 : -1));
    want("feed", rokdaum_feed(&host, 13, in, N, out, N, &n), ROKDAUM_OK);
    want("one for each frame", n, N / 64);
    for (int f = 0; f < N / 64; f++)
        wrong += out[f] != (f >= 6 && f < 12);
    want("frames that are told wrongly", wrong, 0);
    want("get", rokdaum_get(&host, 13, words, 72, &n), ROKDAUM_OK);
    want("no sample waits", n == 1 && words[0] == 0, 1);
    want("no such margin", rokdaum_create(&host, 14, ROKDAUM_ACTIVITY, 0, (const int16_t[]){64, 6, 16, 6, 320, 2}, 6, 0), ROKDAUM_PARAMS);
}

static void each_kind(void)
{
    static const int16_t a[] = ROKDAUM_DTMF_A, one[72] = {1, 1, 1}, adpcm[2] = {32, 0};
    static const struct {
        rokdaum_kind kind;
        const int16_t *words;
        size_t count;
    } kinds[] = {
        {ROKDAUM_FIR, one, 3}, {ROKDAUM_DECIM, one, 3}, {ROKDAUM_BIQUAD, one, 5}, {ROKDAUM_TONE, one, 3},
        {ROKDAUM_G711, one, 2}, {ROKDAUM_GAIN, one, 1}, {ROKDAUM_LEVEL, one, 2}, {ROKDAUM_DTMF, a, 7},
        {ROKDAUM_ECHO, one, 4}, {ROKDAUM_ADPCM, adpcm, 2}, {ROKDAUM_SIGNAL, one, 7}, {ROKDAUM_ACTIVITY, one, 6},
    };
    for (int k = 0; k < 12; k++) {
        want("the kinds have the numbers 0 to 11", kinds[k].kind, k);
        want("create each", rokdaum_create(&host, (uint8_t)(32 + k), kinds[k].kind, 7, kinds[k].words, kinds[k].count, 0), ROKDAUM_OK);
    }
}

int main(void)
{
    static const int16_t a[] = ROKDAUM_DTMF_A, b[] = ROKDAUM_DTMF_B;
    const rokdaum_options options = ROKDAUM_OPTIONS;
    fill();
    want("open", rokdaum_open(&host, &options), ROKDAUM_OK);
    gains();
    levels();
    digits(2, a);
    digits(3, b);
    echoes();
    codes();
    signals();
    activities();
    each_kind();
    want("sixteen places of keys", sizeof ROKDAUM_DTMF_KEYS, 17);
    want("close", rokdaum_close(&host), ROKDAUM_OK);
    return told();
}
