/* SPDX-License-Identifier: Apache-2.0
 * The digits that were dialled in a file of samples of 16 bits, the low byte first, 8,000 a second, on the standard input. Without
 * input it dials 1 5 9 # 0 itself.
 *
 * One instance of the detector hears the line and gives a code for each frame of 102 samples; rokdaum_dialled makes digits of them. */
#include <math.h>
#include <rokdaum.h>
#include <stdio.h>
#include <stdlib.h>

enum { RATE = 8000, BLOCK = 160, TONE_BLOCKS = 4, PAUSE_BLOCKS = 4 };
static const double PI = 3.14159265358979323846;
static const int frequencies[8] = {697, 770, 852, 941, 1209, 1336, 1477, 1633};
static const char keys[] = ROKDAUM_DTMF_KEYS;

static void must(rokdaum_code code)
{
    if (code != ROKDAUM_OK) {
        fprintf(stderr, "dtmf: %s\n", rokdaum_error_text(code));
        exit(1);
    }
}

static void open_receiver(rokdaum *host)
{
    static const int16_t parameters[] = ROKDAUM_DTMF_A;
    static const uint8_t members[1] = {0};
    const rokdaum_options options = {512, 512, 512, 1, 0, 0};
    must(rokdaum_open(host, &options));
    must(rokdaum_create(host, 0, ROKDAUM_DTMF, 0, parameters, sizeof parameters / sizeof *parameters, 0));
    must(rokdaum_chain(host, 0, members, 1));
}

static void hear(rokdaum *host, rokdaum_digits *digits, const int16_t *in, size_t count)
{
    int16_t codes[BLOCK];
    char dialled[BLOCK];
    uint32_t frames;
    size_t n;
    must(rokdaum_feed(host, 0, in, count, codes, BLOCK, &frames));
    must(rokdaum_dialled(digits, codes, frames, dialled, BLOCK, &n));
    fwrite(dialled, 1, n, stdout);
}

/* A key for 80 ms, and then nothing for 80 ms. */
static void dial(rokdaum *host, rokdaum_digits *digits, char key)
{
    int16_t in[BLOCK];
    int at = 0;
    while (keys[at] != key)
        at++;
    for (int block = 0; block < TONE_BLOCKS + PAUSE_BLOCKS; block++) {
        for (int i = 0; i < BLOCK; i++) {
            double t = 2 * PI * (block * BLOCK + i) / RATE;
            in[i] = block < TONE_BLOCKS ? (int16_t)(6000 * sin(frequencies[at / 4] * t) + 6000 * sin(frequencies[4 + at % 4] * t)) : 0;
        }
        hear(host, digits, in, BLOCK);
    }
}

int main(void)
{
    rokdaum host = ROKDAUM_CLOSED;
    rokdaum_digits digits = ROKDAUM_DIGITS_A;
    unsigned char bytes[2 * BLOCK];
    int16_t in[BLOCK];
    size_t got, all = 0;
    open_receiver(&host);
    while ((got = fread(bytes, 2, BLOCK, stdin)) > 0) {
        for (size_t i = 0; i < got; i++)
            in[i] = (int16_t)(bytes[2 * i] | bytes[2 * i + 1] << 8);
        hear(&host, &digits, in, got);
        all += got;
    }
    for (const char *key = "159#0"; all == 0 && *key; key++)
        dial(&host, &digits, *key);
    putchar('\n');
    must(rokdaum_close(&host));
    return 0;
}
