/* SPDX-License-Identifier: Apache-2.0
 * What the library does on a machine: a checksum of the output of each kind, the instructions a sample, and the stack of each call. The
 * lines that begin with "sum" are the same on every machine. It needs no C library but memcpy and its like. */
#include "board.h"
#include "rokdaum.h"

enum { WORDS = 4096, ARENA = 3 * 2 * WORDS + 64 * 1024, BLOCK = ROKDAUM_BLOCK_SAMPLES, FIRST_BLOCKS = 2 };

static _Alignas(16) unsigned char arena[ARENA];
static size_t taken, most;

/* The allocator hands out the arena from its beginning on, and takes nothing back before the host is closed. */
static void *allocate(void *context, size_t size, size_t align)
{
    (void)context;
    size_t at = (taken + align - 1) / align * align;
    if (size > sizeof arena - at)
        return 0;
    taken = at + size;
    if (taken > most)
        most = taken;
    return arena + at;
}

static void release(void *context, void *memory)
{
    (void)context, (void)memory;
}

static const rokdaum_allocator allocator = {allocate, release, 0};
static const rokdaum_options options = {WORDS, WORDS, WORDS, ROKDAUM_CHANNELS, 0, 0};
static rokdaum host = ROKDAUM_CLOSED;
static int16_t in[BLOCK], out[BLOCK];

/* ---- Lines of text ---- */

static void say_number(uint64_t n)
{
    char text[24], *at = text + sizeof text;
    *--at = 0;
    do {
        *--at = (char)('0' + n % 10);
        n /= 10;
    } while (n);
    board_put(at);
}

static void say_line(const char *what, const char *name, uint32_t length)
{
    board_put(what);
    board_put(name);
    board_put(", feeds of ");
    say_number(length);
    board_put(": ");
}

static void fail(const char *what, int code)
{
    board_put("FAILED: ");
    board_put(what);
    board_put(" ");
    say_number((uint64_t)code);
    board_put("\n");
    board_leave(1);
}

/* ---- Sounds and sums ---- */

static uint32_t seed;

static int16_t noise(int amplitude)
{
    seed = seed * 1664525u + 1013904223u;
    return (int16_t)((int32_t)(seed >> 16) * 2 * amplitude / 65536 - amplitude);
}

/* FNV-1a over the bytes of the samples, low byte first. */
static uint32_t sum_of(const int16_t *words, uint32_t count, uint32_t sum)
{
    for (uint32_t k = 0; k < count; k++) {
        sum = (sum ^ (uint8_t)words[k]) * 16777619u;
        sum = (sum ^ (uint8_t)(words[k] >> 8)) * 16777619u;
    }
    return sum;
}

/* ---- Feeds ---- */

/* Feeds channel 0 its blocks, and tells the sum of what comes out and the instructions a sample; the first blocks fill what is empty, and
 * count for the sum alone. */
static void feed(const char *name, const uint8_t *members, size_t count, uint32_t length, uint32_t blocks, int amplitude)
{
    uint32_t given, sum = 2166136261u;
    uint64_t spent = 0;
    int code = rokdaum_chain(&host, 0, members, count);
    if (code)
        fail(name, code);
    seed = 1;
    for (uint32_t b = 0; b < blocks + FIRST_BLOCKS; b++) {
        for (uint32_t k = 0; k < length; k++)
            in[k] = noise(amplitude);
        uint64_t before = board_count();
        code = rokdaum_feed(&host, 0, in, length, out, BLOCK, &given);
        uint64_t after = board_count();
        if (code)
            fail(name, code);
        if (b >= FIRST_BLOCKS)
            spent += after - before;
        sum = sum_of(out, given, sum);
    }
    say_line("sum ", name, length);
    say_number(sum);
    board_put("\n");
    if (board_step) {
        uint64_t tenths = (spent * 10 + (uint64_t)blocks * length / 2) / ((uint64_t)blocks * length);
        say_line("instructions ", name, length);
        say_number(tenths / 10);
        board_put(".");
        say_number(tenths % 10);
        board_put("\n");
    }
    if ((code = rokdaum_unchain(&host, 0)))
        fail(name, code);
}

static void create(uint8_t instance, rokdaum_kind kind, const int16_t *words, size_t count)
{
    int code = rokdaum_create(&host, instance, kind, 0, words, count, 0);
    if (code)
        fail("create", code);
}

static void drop(uint8_t instance)
{
    int code = rokdaum_delete(&host, instance);
    if (code)
        fail("delete", code);
}

/* The instances 0 and on, which are `count`, as one channel in blocks of 160, 8 and 1, and then deletes them. */
static void feeds(const char *name, uint8_t count, int amplitude)
{
    static const uint8_t members[] = {0, 1, 2};
    feed(name, members, count, 160, 40, amplitude);
    feed(name, members, count, 8, 80, amplitude);
    feed(name, members, count, 1, 200, amplitude);
    for (uint8_t k = 0; k < count; k++)
        drop(k);
}

static void one(const char *name, rokdaum_kind kind, const int16_t *words, size_t count, int amplitude)
{
    create(0, kind, words, count);
    feeds(name, 1, amplitude);
}

#define WORDS_OF(...) (const int16_t[]){__VA_ARGS__}, sizeof(int16_t[]){__VA_ARGS__} / sizeof(int16_t)

static void filters(void)
{
    static int16_t quiet[64], loud[64], decimator[65] = {8};
    for (int k = 0; k < 64; k++) {
        seed = (uint32_t)k + 7;
        noise(1);
        quiet[k] = noise(480);
        loud[k] = noise(27000);
        decimator[k + 1] = quiet[k];
    }
    one("FIR, 64 taps", ROKDAUM_FIR, quiet, 64, 32000);
    one("FIR, 64 taps, loud", ROKDAUM_FIR, loud, 64, 32767);
    one("decimator by 8", ROKDAUM_DECIM, decimator, 65, 20000);
    one("biquad", ROKDAUM_BIQUAD, WORDS_OF(8192, 4096, 2048, -8192, 4096), 20000);
}

static void kinds(void)
{
    static const int16_t digits[] = ROKDAUM_DTMF_A;
    one("tone", ROKDAUM_TONE, WORDS_OF(27980, 205, 7), 20000);
    one("mu-law encoder", ROKDAUM_G711, WORDS_OF(1, 0), 32767);
    one("mu-law decoder", ROKDAUM_G711, WORDS_OF(1, 1), 32767);
    one("gain", ROKDAUM_GAIN, WORDS_OF(6000), 32767);
    one("level", ROKDAUM_LEVEL, WORDS_OF(205, 4), 32767);
    one("dialled digits", ROKDAUM_DTMF, digits, sizeof digits / sizeof *digits, 20000);
    one("echo canceller, 128", ROKDAUM_ECHO, WORDS_OF(128, 8192, 16384, 240), 8000);
    one("G.726 encoder, 32", ROKDAUM_ADPCM, WORDS_OF(32, 0), 20000);
    one("G.726 decoder, 32", ROKDAUM_ADPCM, WORDS_OF(32, 1), 20000);
    one("signal", ROKDAUM_SIGNAL, WORDS_OF(26956, 9315, 16325, 14206, 800, 400, 0), 8000);
    one("activity", ROKDAUM_ACTIVITY, WORDS_OF(80, 7, 3, 7, 134, 15), 8000);
    create(0, ROKDAUM_G711, WORDS_OF(1, 1));
    create(1, ROKDAUM_BIQUAD, WORDS_OF(8192, 4096, 2048, -8192, 4096));
    create(2, ROKDAUM_G711, WORDS_OF(1, 0));
    feeds("decoder, biquad, encoder", 3, 32767);
}

/* ---- Stack ---- */

#define STACK(what, call)                          \
    do {                                           \
        board_fill_stack();                        \
        int code_ = (call);                        \
        size_t used_ = board_stack_used();         \
        if (code_)                                 \
            fail(what, code_);                     \
        if (used_) {                               \
            board_put("stack " what ": ");         \
            say_number(used_);                     \
            board_put("\n");                       \
        }                                          \
    } while (0)

static void stacks(void)
{
    static const uint8_t members[2] = {0, 1};
    static const int16_t digits[] = ROKDAUM_DTMF_A;
    static rokdaum_block blocks[ROKDAUM_MAP_BLOCKS];
    static int16_t taps[64];
    uint32_t n;
    int32_t active;
    for (int k = 0; k < 64; k++)
        taps[k] = (int16_t)(k * 13 - 300);
    STACK("open", rokdaum_open_with(&host, &options, &allocator));
    STACK("create, a filter", rokdaum_create(&host, 0, ROKDAUM_FIR, 0, taps, 64, 0));
    STACK("create, digits", rokdaum_create(&host, 1, ROKDAUM_DTMF, 0, digits, sizeof digits / sizeof *digits, 0));
    STACK("chain", rokdaum_chain(&host, 0, members, 2));
    STACK("feed", rokdaum_feed(&host, 0, in, BLOCK, out, BLOCK, &n));
    STACK("set", rokdaum_set(&host, 0, taps, 64));
    STACK("get", rokdaum_get(&host, 0, out, ROKDAUM_PARAMETER_WORDS, &n));
    STACK("map", rokdaum_map(&host, ROKDAUM_DARAM, blocks, ROKDAUM_MAP_BLOCKS, &n));
    STACK("compact", rokdaum_compact(&host, ROKDAUM_DARAM, &n));
    STACK("stat", rokdaum_stat(&host, 0, &active, &n));
    STACK("unchain", rokdaum_unchain(&host, 0));
    STACK("delete", rokdaum_delete(&host, 1));
    STACK("close", rokdaum_close(&host));
    taken = 0;
}

int main(void)
{
    int code;
    stacks();
    if ((code = rokdaum_open_with(&host, &options, &allocator)))
        fail("open", code);
    filters();
    kinds();
    if ((code = rokdaum_close(&host)))
        fail("close", code);
    board_put("memory: ");
    say_number(most);
    board_put("\n");
    board_leave(0);
}
