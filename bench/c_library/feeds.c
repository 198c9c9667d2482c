/* SPDX-License-Identifier: Apache-2.0
 * How long a feed takes through the library, beside the same host in C (bench/c): by its `pass`, which finds the channel, activates and runs
 * the same instances; and by its `process` alone (alone.c), which is told the instance, and writes where its caller wants it.
 *
 *     make -C c && clang -O2 -I c -I bench/c bench/c_library/feeds.c bench/c_library/alone.c bench/c/host.c bench/c/baseline.c out/c/librokdaum.a -o out/c/feeds && out/c/feeds
 *
 * With best.c and -O3 -march=x86-64-v2 in place of baseline.c and -O2 it is the strongest C. A row has a channel, the samples of a feed,
 * nanoseconds a feed through the library, in C and by the C's `process` alone, the least of as many rounds, by turns, and how many times each
 * of the two the library takes. Kinds that the C has not are timed alone. Before that, all give the same samples over blocks of each
 * length, or the command says so and ends with 1. With two words, as in `out/c/feeds biquad 160`, the library alone feeds a million
 * samples, with `in C` behind them the C, and with `in C alone` its `process`: for callgrind. */
#define _POSIX_C_SOURCE 200809L
#include <host.h>
#include <rokdaum.h>
#include <stdio.h>
#include <stdlib.h>
#include <string.h>
#include <time.h>

enum { TAPS = 16, MOST = 1024, ROUNDS = 150, MEMBERS = 3, PARAMETERS = 16 };

struct member {
    uint8_t kind; /* of the library; those up to ROKDAUM_G711 are in the C too */
    uint8_t group;
    int count;
    int16_t parameters[PARAMETERS];
};

struct channel {
    const char *name;
    int by_turns; /* the two members are a channel each, fed by turns */
    int count;
    struct member members[MEMBERS];
};

#define A_FIR {ROKDAUM_FIR, 0, TAPS, {1500, 1500, 1500, 1500, 1500, 1500, 1500, 1500, 1500, 1500, 1500, 1500, 1500, 1500, 1500, 1500}}
#define A_BIQUAD(group) {ROKDAUM_BIQUAD, group, 5, {16384, -20000, 16384, -19000, 15000}}
#define A_DECODER {ROKDAUM_G711, 0, 2, {1, 1}}
#define AN_ENCODER {ROKDAUM_G711, 2, 2, {0, 0}}

static const struct channel channels[] = {
    {"fir 16", 0, 1, {A_FIR}},
    {"two fir 16 by turns", 1, 2, {A_FIR, A_FIR}},
    {"biquad", 0, 1, {A_BIQUAD(0)}},
    {"mu-law decoder", 0, 1, {A_DECODER}},
    {"decoder, biquad, encoder", 0, 3, {A_DECODER, A_BIQUAD(1), AN_ENCODER}},
    {"gain", 0, 1, {{ROKDAUM_GAIN, 0, 1, {5000}}}},
    {"level", 0, 1, {{ROKDAUM_LEVEL, 0, 2, {160, 4}}}},
    {"dtmf", 0, 1, {{ROKDAUM_DTMF, 0, 7, ROKDAUM_DTMF_A}}},
};

static int16_t in[MOST], out[MOST];
static rokdaum library = ROKDAUM_CLOSED;

static double nanoseconds(void)
{
    struct timespec now;
    clock_gettime(CLOCK_MONOTONIC, &now);
    return (double)now.tv_sec * 1e9 + (double)now.tv_nsec;
}

static void must(int code, const char *what)
{
    if (code) {
        fprintf(stderr, "feeds: %s: %d\n", what, code);
        exit(1);
    }
}

/* Of alone.c. */
void alone_open_host(const int spaces[SPACES], int poison, int channel_count);
enum answer alone_create(int instance, enum kind kind, int group, const int *parameters, int count);
enum answer alone_delete(int instance);
int alone_feeds(long feeds, int by_turns, int members, const word16 *in, int n, word16 *out);

static int by_turns, members;

/* The channel of feed k: the only one, or the next of two. */
static inline uint8_t turn(long k)
{
    return by_turns ? (uint8_t)(k & 1) : 0;
}

/* A feed to a channel is inlined into each loop, as that of alone.c is. */
#define INLINED static inline __attribute__((always_inline))

INLINED int feed_library(uint8_t channel, int n)
{
    uint32_t given;
    must((int)rokdaum_feed(&library, channel, in, (size_t)n, out, MOST, &given), "the library");
    return (int)given;
}

INLINED int feed_c(uint8_t channel, int n)
{
    int given;
    const word16 *samples = pass(channel, in, n, &given);
    memcpy(out, samples, (size_t)given * sizeof *out);
    return given;
}

static int is_in_c(const struct channel *channel)
{
    for (int i = 0; i < channel->count; i++)
        if (channel->members[i].kind > ROKDAUM_G711)
            return 0;
    return 1;
}

/* The channel, or the two, of the library and of the C. */
static void open_channel(const struct channel *channel)
{
    rokdaum_options options = ROKDAUM_OPTIONS;
    uint8_t all[MEMBERS] = {0, 1, 2};
    int numbers[MEMBERS] = {0, 1, 2};
    int lists = channel->by_turns ? 2 : 1, length = channel->by_turns ? 1 : channel->count;
    by_turns = channel->by_turns;
    members = length;
    must((int)rokdaum_open(&library, &options), "rokdaum_open");
    for (int i = 0; i < channel->count; i++) {
        const struct member *it = &channel->members[i];
        int parameters[PARAMETERS];
        for (int k = 0; k < it->count; k++)
            parameters[k] = it->parameters[k];
        must((int)rokdaum_create(&library, (uint8_t)i, it->kind, it->group, it->parameters, (size_t)it->count, 0), "rokdaum_create");
        if (is_in_c(channel)) {
            must((int)create(i, (enum kind)it->kind, it->group, parameters, it->count), "create");
            must((int)alone_create(i, (enum kind)it->kind, it->group, parameters, it->count), "alone_create");
        }
    }
    for (int c = 0; c < lists; c++) {
        must((int)rokdaum_chain(&library, (uint8_t)c, all + c, (size_t)length), "rokdaum_chain");
        if (is_in_c(channel))
            must((int)chain(c, numbers + c, length), "chain");
    }
}

static void close_channel(const struct channel *channel)
{
    must((int)rokdaum_close(&library), "rokdaum_close");
    if (!is_in_c(channel))
        return;
    for (int c = 0; c <= channel->by_turns; c++)
        must((int)unchain(c), "unchain");
    for (int i = 0; i < channel->count; i++) {
        must((int)delete(i), "delete");
        must((int)alone_delete(i), "alone_delete");
    }
}

/* All give the same over a block. */
static void compare(int n)
{
    static int16_t first[MOST];
    int given = feed_library(0, n);
    memcpy(first, out, sizeof first);
    int same = feed_c(0, n) == given && !memcmp(first, out, (size_t)given * sizeof *out);
    if (!same || alone_feeds(1, 0, members, in, n, out) != given || memcmp(first, out, (size_t)given * sizeof *out)) {
        fprintf(stderr, "feeds: the samples of the library and of the C differ\n");
        exit(1);
    }
}

static int feeds_of(int n)
{
    return 200000 / (n + 20) + 1;
}

static double once_alone(int n)
{
    double begun = nanoseconds();
    alone_feeds(feeds_of(n), by_turns, members, in, n, out);
    return (nanoseconds() - begun) / feeds_of(n);
}

INLINED double once(int (*feed)(uint8_t, int), int n)
{
    int calls = feeds_of(n);
    double begun = nanoseconds();
    for (int k = 0; k < calls; k++)
        feed(turn(k), n);
    return (nanoseconds() - begun) / calls;
}

static void time_feeds(const struct channel *channel, int n)
{
    double mine = 1e30, its = 1e30, alone = 1e30;
    for (int round = 0; round < ROUNDS; round++) {
        double took = once(feed_library, n);
        mine = took < mine ? took : mine;
        if (is_in_c(channel)) {
            took = once(feed_c, n);
            its = took < its ? took : its;
            took = once_alone(n);
            alone = took < alone ? took : alone;
        }
    }
    if (is_in_c(channel))
        printf("%-26s %5d %9.0f ns %9.0f ns in C %7.2f %9.0f ns alone %7.2f\n", channel->name, n, mine, its, mine / its, alone, mine / alone);
    else
        printf("%-26s %5d %9.0f ns\n", channel->name, n, mine);
}

int main(int count, char **words)
{
    static const int lengths[] = {1, 8, 80, 160, 1024}, sizes[SPACES] = {65536, 65536, 65536};
    int alone = count > 2, n = alone ? atoi(words[2]) : 0, in_c = count > 3, by_process = count > 5;
    for (size_t i = 0; i < MOST; i++)
        in[i] = (int16_t)(i * 37 & 255);
    open_host(sizes, NO_POISON, CHANNELS);
    alone_open_host(sizes, NO_POISON, CHANNELS);
    for (size_t c = 0; c < sizeof channels / sizeof *channels; c++) {
        if (alone && strcmp(words[1], channels[c].name))
            continue;
        open_channel(&channels[c]);
        /* A loop each. */
        if (n > 0 && by_process)
            alone_feeds((1000000 + n - 1) / n, by_turns, members, in, n, out);
        else if (n > 0 && in_c)
            for (long k = 0; k * n < 1000000; k++)
                feed_c(turn(k), n);
        else if (n > 0)
            for (long k = 0; k * n < 1000000; k++)
                feed_library(turn(k), n);
        for (size_t k = 0; !alone && k < sizeof lengths / sizeof *lengths; k++) {
            if (is_in_c(&channels[c]))
                compare(lengths[k]);
            time_feeds(&channels[c], lengths[k]);
        }
        close_channel(&channels[c]);
    }
    return 0;
}
