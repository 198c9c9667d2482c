/* SPDX-License-Identifier: Apache-2.0
 * A job by SpanDSP's functions over a file of samples, in blocks of 20 ms.
 *
 *     spandsp fir COEFFICIENTS IN OUT    a FIR of 64 coefficients, which stand in a file as words of text
 *     spandsp encode|decode IN OUT       mu-law, to bytes and from them
 *     spandsp tone|tones IN OUT          the level of one tone, or of the eight of a dialled digit, for each 205 samples, as floats
 *     spandsp digits IN OUT              its detector of dialled digits, whose frames have 102 samples
 *
 * It links Debian's libspandsp2 without its header, so what it calls is declared here; a descriptor of a tone is a float and an int. */
#include <stdint.h>
#include <stdio.h>
#include <string.h>

enum { BLOCK = 160, TAPS = 64, FRAME = 205, TONES = 8, G711_ULAW = 1 };
struct descriptor { float factor; int samples; };

int32_t vec_circular_dot_prodi16(const int16_t *x, const int16_t *y, int n, int at);
void *g711_init(void *state, int mode);
int g711_encode(void *state, uint8_t *codes, const int16_t *samples, int n);
int g711_decode(void *state, int16_t *samples, const uint8_t *codes, int n);
void make_goertzel_descriptor(struct descriptor *, float frequency, int samples);
void *goertzel_init(void *state, struct descriptor *);
int goertzel_update(void *state, const int16_t *samples, int n);
float goertzel_result(void *state);
void *dtmf_rx_init(void *state, void *callback, void *user);
int dtmf_rx(void *state, const int16_t *samples, int n);
size_t dtmf_rx_get(void *state, char *digits, int most);

static FILE *in, *out;
static int16_t x[BLOCK], y[BLOCK];
static uint8_t codes[BLOCK];

static int samples(void) { return (int)fread(x, sizeof *x, BLOCK, in); }

/* Its fir16 stands in its header: the product is its library's, and the ring of past samples is kept here as there. */
static int filter(const char *name)
{
    int16_t c[TAPS], history[TAPS] = {0};
    FILE *file = fopen(name, "r");
    for (int k = 0; k < TAPS; k++)
        if (!file || fscanf(file, "%hd", &c[k]) != 1)
            return 2;
    for (int n, at = TAPS - 1; (n = samples()); fwrite(y, sizeof *y, (size_t)n, out))
        for (int i = 0; i < n; i++) {
            history[at] = x[i];
            y[i] = (int16_t)(vec_circular_dot_prodi16(history, c, TAPS, at) >> 15);
            at = at ? at - 1 : TAPS - 1;
        }
    return 0;
}

static int encode(void)
{
    void *law = g711_init(NULL, G711_ULAW);
    for (int n; (n = samples()); fwrite(codes, 1, (size_t)n, out))
        g711_encode(law, codes, x, n);
    return 0;
}

static int decode(void)
{
    void *law = g711_init(NULL, G711_ULAW);
    for (int n; (n = (int)fread(codes, 1, BLOCK, in)); fwrite(y, sizeof *y, (size_t)n, out))
        g711_decode(law, y, codes, n);
    return 0;
}

static int levels(int tones)
{
    static const float frequency[TONES] = {697, 770, 852, 941, 1209, 1336, 1477, 1633};
    struct descriptor of[TONES];
    void *tone[TONES];
    for (int t = 0; t < tones; t++) {
        make_goertzel_descriptor(&of[t], frequency[t], FRAME);
        tone[t] = goertzel_init(NULL, &of[t]);
    }
    for (int n, count = 0; (n = samples());)
        for (int at = 0; at < n;) {
            int run = FRAME - count < n - at ? FRAME - count : n - at;
            for (int t = 0; t < tones; t++)
                goertzel_update(tone[t], x + at, run);
            at += run, count += run;
            for (int t = 0; count == FRAME && t < tones; t++) {
                float level = goertzel_result(tone[t]);
                fwrite(&level, sizeof level, 1, out);
            }
            count %= FRAME;
        }
    return 0;
}

static int digits(void)
{
    char found[128];
    void *receiver = dtmf_rx_init(NULL, NULL, NULL);
    for (int n; (n = samples());) {
        dtmf_rx(receiver, x, n);
        fwrite(found, 1, dtmf_rx_get(receiver, found, sizeof found - 1), out);
    }
    return 0;
}

int main(int argc, char **argv)
{
    if (argc < 4 || !(in = fopen(argv[argc - 2], "rb")) || !(out = fopen(argv[argc - 1], "wb")))
        return 2;
    const char *job = argv[1];
    int status = !strcmp(job, "fir") ? filter(argv[2]) : !strcmp(job, "encode") ? encode() : !strcmp(job, "decode") ? decode() :
                 !strcmp(job, "tone") ? levels(1) : !strcmp(job, "tones") ? levels(TONES) : digits();
    return fclose(out) ? 2 : status;
}
