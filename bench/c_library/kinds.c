/* SPDX-License-Identifier: Apache-2.0
 * One instance of each kind in a host of its own, for bench/characterise.
 *
 *     kinds                          names the kinds, one a line, with their parameters
 *     kinds KIND memory              the words of its blocks as placed: external, saram, scratch in daram
 *     kinds KIND stack               bytes of stack that its creation and a feed of 1,024 samples take
 *     kinds KIND create COUNT        creates and deletes a second instance so many times
 *     kinds KIND turns COUNT INPUT   deactivates the instance before each of so many feeds of one sample
 *     kinds KIND feeds COUNT INPUT SAMPLES    feeds so many blocks
 *
 * INPUT is 0 silence, 1 noise at full scale, 2 the greatest and the least word by turns. The last three are run under callgrind, with two
 * counts: the difference is what the calls take. */
#define _XOPEN_SOURCE 700
#include <pthread.h>
#include <rokdaum.h>
#include <stdio.h>
#include <stdlib.h>
#include <string.h>

enum { MOST = 1024, WORDS = 72, SIZE = 1 << 20, PAINT = 0xa5 };

#define SIXTEEN(a, b) a, b, a, b, a, b, a, b, a, b, a, b, a, b, a, b
#define SIXTY_FOUR(a, b) SIXTEEN(a, b), SIXTEEN(a, b), SIXTEEN(a, b), SIXTEEN(a, b)

static const struct kind {
    const char *name, *parameters;
    rokdaum_kind kind;
    size_t count;
    int16_t words[WORDS];
} kinds[] = {
    {"FIR", "1 coefficient", ROKDAUM_FIR, 1, {16384}},
    {"FIR", "64, no sum can saturate", ROKDAUM_FIR, 64, {SIXTY_FOUR(500, 500)}},
    {"FIR", "64, sums can saturate", ROKDAUM_FIR, 64, {SIXTY_FOUR(32767, -32768)}},
    {"decimator", "by 8, 64 coefficients", ROKDAUM_DECIM, 65, {8, SIXTY_FOUR(500, 500)}},
    {"biquad", "b0 b1 b2 a1 a2", ROKDAUM_BIQUAD, 5, {32767, 32767, 32767, -32767, -32767}},
    {"tone", "frames of 205", ROKDAUM_TONE, 3, {27980, 205, 6}},
    {"G.711", "mu-law, encodes", ROKDAUM_G711, 2, {1, 0}},
    {"G.711", "mu-law, decodes", ROKDAUM_G711, 2, {1, 1}},
    {"gain", "the factor", ROKDAUM_GAIN, 1, {5000}},
    {"level", "frames of 160", ROKDAUM_LEVEL, 2, {160, 4}},
    {"DTMF", "ROKDAUM_DTMF_A", ROKDAUM_DTMF, 7, ROKDAUM_DTMF_A},
    {"echo", "128 coefficients", ROKDAUM_ECHO, 4, {128, 8192, 16384, 240}},
    {"ADPCM", "32 kbit/s, encodes", ROKDAUM_ADPCM, 2, {32, 0}},
    {"ADPCM", "32 kbit/s, decodes", ROKDAUM_ADPCM, 2, {32, 1}},
    {"signal", "two tones", ROKDAUM_SIGNAL, 7, {26956, 9315, 16325, 14206, 800, 400, 0}},
    {"activity", "frames of 80", ROKDAUM_ACTIVITY, 6, {80, 6, 3, 7, 320, 15}},
};
enum { KINDS = sizeof kinds / sizeof *kinds };

static const struct kind *kind;
static rokdaum host = ROKDAUM_CLOSED;
static int16_t in[MOST], out[MOST];

static void must(rokdaum_code code, const char *what)
{
    if (code) {
        fprintf(stderr, "kinds: %s: %s\n", what, rokdaum_error_text(code));
        exit(1);
    }
}

static void create(uint8_t instance)
{
    must(rokdaum_create(&host, instance, kind->kind, 0, kind->words, kind->count, 0), "rokdaum_create");
}

static void create_first(void)
{
    create(0);
}

static void feed(size_t samples)
{
    uint32_t given;
    must(rokdaum_feed(&host, 0, in, samples, out, MOST, &given), "rokdaum_feed");
}

static void feed_longest(void)
{
    feed(MOST);
}

static void nothing(void)
{
}

/* The samples of a run: the same noise each time. */
static void fill(int input)
{
    uint32_t state = 1;
    for (size_t k = 0; k < MOST; k++) {
        state = state * 1664525u + 1013904223u;
        in[k] = (int16_t)(input == 0 ? 0 : input == 1 ? (int)(state >> 16) - 32768 : k % 2 ? -32768 : 32767);
    }
}

static void *on_a_stack(void *call)
{
    ((void (*const *)(void))call)[0]();
    return 0;
}

/* How much of a painted stack a call touches. */
static size_t taken(unsigned char *stack, void (*run)(void))
{
    pthread_attr_t attributes;
    pthread_t thread;
    size_t untouched = 0;
    memset(stack, PAINT, SIZE);
    pthread_attr_init(&attributes);
    pthread_attr_setstack(&attributes, stack, SIZE);
    if (pthread_create(&thread, &attributes, on_a_stack, &run))
        exit(2);
    pthread_join(thread, 0);
    pthread_attr_destroy(&attributes);
    while (untouched < SIZE && stack[untouched] == PAINT)
        untouched++;
    return SIZE - untouched;
}

static void print_memory(void)
{
    static const rokdaum_space spaces[] = {ROKDAUM_EXTERNAL, ROKDAUM_SARAM, ROKDAUM_DARAM};
    rokdaum_block blocks[ROKDAUM_MAP_BLOCKS];
    for (size_t s = 0; s < 3; s++) {
        uint32_t count, words = 0;
        must(rokdaum_map(&host, spaces[s], blocks, ROKDAUM_MAP_BLOCKS, &count), "rokdaum_map");
        for (uint32_t k = 0; k < count; k++)
            words += blocks[k].size;
        printf("%u%c", (unsigned)words, s < 2 ? ' ' : '\n');
    }
}

static void print_stack(void)
{
    static const uint8_t member[1] = {0};
    unsigned char *stack = aligned_alloc(4096, SIZE);
    if (!stack)
        exit(2);
    size_t thread = taken(stack, nothing), creation = taken(stack, create_first) - thread;
    must(rokdaum_chain(&host, 0, member, 1), "rokdaum_chain");
    size_t longest = taken(stack, feed_longest) - thread, again = taken(stack, feed_longest) - thread;
    printf("%zu %zu\n", creation, longest > again ? longest : again);
    free(stack);
}

static void run(const char *what, long count, size_t samples)
{
    uint32_t released;
    for (long k = 0; k < count; k++) {
        if (!strcmp(what, "create")) {
            create(1);
            must(rokdaum_delete(&host, 1), "rokdaum_delete");
        } else {
            if (!strcmp(what, "turns"))
                must(rokdaum_release(&host, 0, &released), "rokdaum_release");
            feed(samples);
        }
    }
}

int main(int argc, char **argv)
{
    static const uint8_t member[1] = {0};
    rokdaum_options options = ROKDAUM_OPTIONS;
    if (argc < 3) {
        for (size_t k = 0; k < KINDS; k++)
            printf("%s: %s\n", kinds[k].name, kinds[k].parameters);
        return 0;
    }
    size_t number = strtoul(argv[1], 0, 10);
    if (number >= KINDS)
        return 2;
    kind = kinds + number;
    must(rokdaum_open(&host, &options), "rokdaum_open");
    fill(argc > 4 ? atoi(argv[4]) : 0);
    if (!strcmp(argv[2], "stack")) {
        print_stack();
    } else {
        create_first();
        must(rokdaum_chain(&host, 0, member, 1), "rokdaum_chain");
        feed(1);
        if (!strcmp(argv[2], "memory"))
            print_memory();
        else
            run(argv[2], argc > 3 ? atol(argv[3]) : 0, argc > 5 ? strtoul(argv[5], 0, 10) : 1);
    }
    return (int)rokdaum_close(&host);
}
