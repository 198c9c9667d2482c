/* SPDX-License-Identifier: Apache-2.0
 * Sixteen telephone lines in blocks of 20 ms: a decoder, a filter and an encoder on each. It prints how long a turn over all of them
 * took at the most, of 20 ms that there are. Give it a number of turns; 500 are ten seconds of each line. Name a file too, and the codes
 * that the lines give are written there, a turn of all lines after the other. */
#define _POSIX_C_SOURCE 200809L
#include <rokdaum.h>
#include <stdio.h>
#include <stdlib.h>
#include <time.h>

enum { LINES = 16, SAMPLES = 160, MEMBERS = 3 };

static void must(rokdaum_code code)
{
    if (code != ROKDAUM_OK) {
        fprintf(stderr, "sixteen_channels: %s\n", rokdaum_error_text(code));
        exit(1);
    }
}

/* What a receiver of codes gave for this sample of a line. */
static int16_t received(long turn, int line, int sample)
{
    return (int16_t)((turn * 7 + line * 31 + sample * 13) & 255);
}

static void write_codes(FILE *to, const int16_t *codes, uint32_t n)
{
    for (uint32_t k = 0; k < n; k++)
        if (putc(codes[k], to) == EOF) {
            fputs("sixteen_channels: can't write\n", stderr);
            exit(1);
        }
}

static double microseconds(void)
{
    struct timespec now;
    clock_gettime(CLOCK_MONOTONIC, &now);
    return (double)now.tv_sec * 1e6 + (double)now.tv_nsec / 1e3;
}

int main(int argc, char **argv)
{
    static const int16_t decode[2] = {1, 1}, encode[2] = {1, 0}, notch[5] = {16384, -20000, 16384, -19000, 15000};
    long turns = argc > 1 ? atol(argv[1]) : 500;
    rokdaum_options options = ROKDAUM_OPTIONS;
    rokdaum host = ROKDAUM_CLOSED;
    int16_t in[SAMPLES], out[SAMPLES];
    double longest = 0, all = 0;
    uint32_t n;
    FILE *to = argc > 2 ? fopen(argv[2], "wb") : 0;

    if (argc > 2 && !to) {
        perror(argv[2]);
        return 1;
    }
    must(rokdaum_open(&host, &options));
    for (uint8_t line = 0; line < LINES; line++) {
        uint8_t members[MEMBERS] = {(uint8_t)(MEMBERS * line), (uint8_t)(MEMBERS * line + 1), (uint8_t)(MEMBERS * line + 2)};
        must(rokdaum_create(&host, members[0], ROKDAUM_G711, 0, decode, 2, 0));
        must(rokdaum_create(&host, members[1], ROKDAUM_BIQUAD, 1, notch, 5, 0));
        must(rokdaum_create(&host, members[2], ROKDAUM_G711, 2, encode, 2, 0));
        must(rokdaum_chain(&host, line, members, MEMBERS));
    }
    for (long turn = 0; turn < turns; turn++) {
        double begun = microseconds(), took;
        for (uint8_t line = 0; line < LINES; line++) {
            for (int i = 0; i < SAMPLES; i++)
                in[i] = received(turn, line, i);
            must(rokdaum_feed(&host, line, in, SAMPLES, out, SAMPLES, &n));
            if (to)
                write_codes(to, out, n);
        }
        took = microseconds() - begun;
        all += took;
        if (took > longest)
            longest = took;
    }
    printf("%ld turns of %d lines: %.0f us on average, %.0f us at the most, of 20,000\n", turns, LINES, turns ? all / (double)turns : 0, longest);
    must(rokdaum_close(&host));
    return to && fclose(to) ? 1 : 0;
}
