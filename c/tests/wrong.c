/* SPDX-License-Identifier: Apache-2.0
 * Wrong calls, each with the code that it must be answered with. None of them writes to a place that it is given. */
#include "rokdaum.h"
#include "wanted.h"
#include <string.h>

enum { NO_ANSWER = 77 };

static rokdaum host = ROKDAUM_CLOSED;
static int16_t in[1025];
static const int16_t half[1] = {16384}, many[73];
static const uint8_t members[9] = {0, 1, 2, 3, 4, 5, 6, 7, 8};

/* All that calls write to, and what stood there before a call. */
struct places {
    int16_t out[1025], words[72], quotient;
    rokdaum_block blocks[ROKDAUM_MAP_BLOCKS];
    uint8_t codes[2];
    char dialled[4];
    uint32_t count, moved;
    uint64_t copied;
    int32_t active, sum;
    size_t given;
    rokdaum_space full;
    rokdaum_digits digits;
};
static struct places to, before;
static rokdaum host_before;

/* Puts values that no answer has into every place. */
static void prepare(void)
{
    memset(&to, NO_ANSWER, sizeof to);
    to.digits = (rokdaum_digits)ROKDAUM_DIGITS_A;
    memcpy(&before, &to, sizeof to);
    memcpy(&host_before, &host, sizeof host);
}

static void want_untouched(const char *what)
{
    int is_untouched = memcmp(&to, &before, sizeof to) == 0 && memcmp(&host, &host_before, sizeof host) == 0;
    passed += is_untouched;
    failed += !is_untouched;
    if (!is_untouched)
        printf("%s: something was written\n", what);
}

/* A call that is refused, for which every place is prepared before. */
#define refused(what, call, code) \
    do {                          \
        prepare();                \
        want(what, call, code);   \
        want_untouched(what);     \
    } while (0)

static rokdaum_code opened(uint32_t daram, uint32_t saram, uint32_t external, uint8_t channels)
{
    rokdaum_options options = {daram, saram, external, channels, 1, 21845};
    return rokdaum_open(&host, &options);
}

static void every_call_on_what_is_not_open(const char *when)
{
    refused(when, rokdaum_close(&host), ROKDAUM_NOT_OPEN);
    refused(when, rokdaum_create(&host, 0, ROKDAUM_FIR, 0, half, 1, &to.full), ROKDAUM_NOT_OPEN);
    refused(when, rokdaum_delete(&host, 0), ROKDAUM_NOT_OPEN);
    refused(when, rokdaum_set(&host, 0, half, 1), ROKDAUM_NOT_OPEN);
    refused(when, rokdaum_reset(&host, 0), ROKDAUM_NOT_OPEN);
    refused(when, rokdaum_get(&host, 0, to.words, 72, &to.count), ROKDAUM_NOT_OPEN);
    refused(when, rokdaum_chain(&host, 0, members, 1), ROKDAUM_NOT_OPEN);
    refused(when, rokdaum_unchain(&host, 0), ROKDAUM_NOT_OPEN);
    refused(when, rokdaum_ready(&host, 0), ROKDAUM_NOT_OPEN);
    refused(when, rokdaum_feed(&host, 0, in, 1, to.out, 1, &to.count), ROKDAUM_NOT_OPEN);
    refused(when, rokdaum_feed_all(&host, 0, in, 1, to.out, 1, &to.given), ROKDAUM_NOT_OPEN);
    refused(when, rokdaum_step(&host, ROKDAUM_DARAM, &to.moved), ROKDAUM_NOT_OPEN);
    refused(when, rokdaum_compact(&host, ROKDAUM_DARAM, &to.moved), ROKDAUM_NOT_OPEN);
    refused(when, rokdaum_copied(&host, &to.copied), ROKDAUM_NOT_OPEN);
    refused(when, rokdaum_map(&host, ROKDAUM_DARAM, to.blocks, ROKDAUM_MAP_BLOCKS, &to.count), ROKDAUM_NOT_OPEN);
    refused(when, rokdaum_release(&host, 0, &to.moved), ROKDAUM_NOT_OPEN);
    refused(when, rokdaum_stat(&host, 0, &to.active, &to.count), ROKDAUM_NOT_OPEN);
}

static void null_pointers(void)
{
    rokdaum_options options = ROKDAUM_OPTIONS;
    rokdaum_allocator none = {0, 0, 0};
    refused("null handle: open", rokdaum_open(0, &options), ROKDAUM_NULL);
    refused("null options", rokdaum_open(&host, 0), ROKDAUM_NULL);
    refused("an allocator of nothing", rokdaum_open_with(&host, &options, &none), ROKDAUM_NULL);
    refused("null handle: close", rokdaum_close(0), ROKDAUM_NULL);
    refused("null handle: create", rokdaum_create(0, 0, ROKDAUM_FIR, 0, half, 1, &to.full), ROKDAUM_NULL);
    refused("null parameters", rokdaum_create(&host, 0, ROKDAUM_FIR, 0, 0, 1, &to.full), ROKDAUM_NULL);
    refused("null handle: delete", rokdaum_delete(0, 0), ROKDAUM_NULL);
    refused("null words: set", rokdaum_set(&host, 0, 0, 1), ROKDAUM_NULL);
    refused("null handle: reset", rokdaum_reset(0, 0), ROKDAUM_NULL);
    refused("null words: get", rokdaum_get(&host, 0, 0, 72, &to.count), ROKDAUM_NULL);
    refused("null count: get", rokdaum_get(&host, 0, to.words, 72, 0), ROKDAUM_NULL);
    refused("null members", rokdaum_chain(&host, 0, 0, 1), ROKDAUM_NULL);
    refused("null handle: unchain", rokdaum_unchain(0, 0), ROKDAUM_NULL);
    refused("null handle: ready", rokdaum_ready(0, 0), ROKDAUM_NULL);
    refused("null handle: feed", rokdaum_feed(0, 0, in, 8, to.out, 8, &to.count), ROKDAUM_NULL);
    refused("null samples", rokdaum_feed(&host, 0, 0, 8, to.out, 8, &to.count), ROKDAUM_NULL);
    refused("null out", rokdaum_feed(&host, 0, in, 8, 0, 8, &to.count), ROKDAUM_NULL);
    refused("null given", rokdaum_feed(&host, 0, in, 8, to.out, 8, 0), ROKDAUM_NULL);
    refused("null given: feed all", rokdaum_feed_all(&host, 0, in, 8, to.out, 8, 0), ROKDAUM_NULL);
    refused("null moved: step", rokdaum_step(&host, ROKDAUM_DARAM, 0), ROKDAUM_NULL);
    refused("null moved: compact", rokdaum_compact(&host, ROKDAUM_DARAM, 0), ROKDAUM_NULL);
    refused("null words: copied", rokdaum_copied(&host, 0), ROKDAUM_NULL);
    refused("null blocks", rokdaum_map(&host, ROKDAUM_DARAM, 0, ROKDAUM_MAP_BLOCKS, &to.count), ROKDAUM_NULL);
    refused("null count: map", rokdaum_map(&host, ROKDAUM_DARAM, to.blocks, ROKDAUM_MAP_BLOCKS, 0), ROKDAUM_NULL);
    refused("null released", rokdaum_release(&host, 0, 0), ROKDAUM_NULL);
    refused("null active", rokdaum_stat(&host, 0, 0, &to.count), ROKDAUM_NULL);
    refused("null activations", rokdaum_stat(&host, 0, &to.active, 0), ROKDAUM_NULL);
    refused("null quotient", rokdaum_div_s(1, 2, 0), ROKDAUM_NULL);
    refused("null sum", rokdaum_l_mac_block(0, in, in, 1, 0), ROKDAUM_NULL);
    refused("null block: L_mac", rokdaum_l_mac_block(0, in, 0, 1, &to.sum), ROKDAUM_NULL);
    refused("null block: sub", rokdaum_sub_block(in, 0, to.out, 1), ROKDAUM_NULL);
    refused("null samples: shl", rokdaum_shl_block(0, 1, to.out, 1), ROKDAUM_NULL);
    refused("null out: shr", rokdaum_shr_block(in, 1, 0, 1), ROKDAUM_NULL);
    refused("null samples: mult", rokdaum_mult_block(1, 0, to.out, 1), ROKDAUM_NULL);
    refused("null codes", rokdaum_g711_encode(ROKDAUM_A_LAW, in, 0, 1), ROKDAUM_NULL);
    refused("null samples: decode", rokdaum_g711_decode(ROKDAUM_A_LAW, members, 0, 1), ROKDAUM_NULL);
}

static void hosts(void)
{
    refused("a space of 2 words", opened(2, 0, 0, 1), ROKDAUM_BAD_SIZE);
    refused("a space of 65,540 words", opened(0, 65540, 0, 1), ROKDAUM_BAD_SIZE);
    refused("no channel", opened(4, 4, 4, 0), ROKDAUM_BAD_SIZE);
    refused("17 channels", opened(4, 4, 4, 17), ROKDAUM_BAD_SIZE);
    want("open", opened(4096, 4096, 4096, 2), ROKDAUM_OK);
    refused("open again", opened(4096, 4096, 4096, 2), ROKDAUM_OPEN);
}

static void instances(void)
{
    const int16_t long_one[2] = {16384, 16384}, frame[2] = {1025, 0}, digits[7] = ROKDAUM_DTMF_A, long_frames[7] = {128};
    int16_t large[64] = {0};
    refused("no such kind", rokdaum_create(&host, 0, (rokdaum_kind)12, 0, half, 1, &to.full), ROKDAUM_BAD_KIND);
    refused("no such kind at all", rokdaum_create(&host, 0, (rokdaum_kind)4000000, 0, half, 1, &to.full), ROKDAUM_BAD_KIND);
    refused("a gain of two factors", rokdaum_create(&host, 0, ROKDAUM_GAIN, 0, long_one, 2, &to.full), ROKDAUM_PARAMS);
    refused("a meter without a shift", rokdaum_create(&host, 0, ROKDAUM_LEVEL, 0, half, 1, &to.full), ROKDAUM_PARAMS);
    refused("a meter of frames of 1,025", rokdaum_create(&host, 0, ROKDAUM_LEVEL, 0, frame, 2, &to.full), ROKDAUM_PARAMS);
    refused("a detector of digits with six words", rokdaum_create(&host, 0, ROKDAUM_DTMF, 0, digits, 6, &to.full), ROKDAUM_PARAMS);
    refused("a detector of digits with frames of 128", rokdaum_create(&host, 0, ROKDAUM_DTMF, 0, long_frames, 7, &to.full), ROKDAUM_PARAMS);
    refused("73 words", rokdaum_create(&host, 0, ROKDAUM_FIR, 0, many, 73, &to.full), ROKDAUM_BAD_LENGTH);
    refused("no to.words, from a null pointer", rokdaum_create(&host, 0, ROKDAUM_FIR, 0, 0, 0, &to.full), ROKDAUM_PARAMS);
    refused("instance 64", rokdaum_create(&host, 64, ROKDAUM_FIR, 0, half, 1, &to.full), ROKDAUM_RANGE);
    refused("group 8", rokdaum_create(&host, 0, ROKDAUM_FIR, 8, half, 1, &to.full), ROKDAUM_RANGE);
    want("create", rokdaum_create(&host, 0, ROKDAUM_FIR, 0, half, 1, 0), ROKDAUM_OK);
    refused("create again", rokdaum_create(&host, 0, ROKDAUM_FIR, 0, half, 1, &to.full), ROKDAUM_TAKEN);
    refused("set: doesn't live", rokdaum_set(&host, 5, half, 1), ROKDAUM_MISSING);
    refused("set: 73 words", rokdaum_set(&host, 0, many, 73), ROKDAUM_BAD_LENGTH);
    refused("set: too many for the filter", rokdaum_set(&host, 0, long_one, 2), ROKDAUM_COMMAND);
    refused("get: room for 71 words", rokdaum_get(&host, 0, to.words, 71, &to.count), ROKDAUM_BAD_LENGTH);
    refused("get: instance 64", rokdaum_get(&host, 64, to.words, 72, &to.count), ROKDAUM_RANGE);
    refused("reset: instance 255", rokdaum_reset(&host, 255), ROKDAUM_RANGE);
    refused("delete: doesn't live", rokdaum_delete(&host, 63), ROKDAUM_MISSING);
    refused("delete: instance 64", rokdaum_delete(&host, 64), ROKDAUM_RANGE);
    uint8_t i = 1;
    rokdaum_code code = ROKDAUM_OK;
    for (large[0] = 1; i < 64 && code == ROKDAUM_OK; i++) {
        prepare();
        code = rokdaum_create(&host, i, ROKDAUM_FIR, 1, large, 64, &to.full);
    }
    want("a space is full", code, ROKDAUM_ROOM);
    want("it is one of the three", to.full == ROKDAUM_DARAM || to.full == ROKDAUM_SARAM || to.full == ROKDAUM_EXTERNAL, 1);
    before.full = to.full;
    want_untouched("nothing but the space is told");
    refused("a full space, and no place to tell it", rokdaum_create(&host, 63, ROKDAUM_FIR, 1, large, 64, 0), ROKDAUM_ROOM);
}

static void channels(void)
{
    const uint8_t twice[2] = {0, 0}, gone[1] = {62}, far[1] = {64};
    refused("no member", rokdaum_chain(&host, 0, members, 0), ROKDAUM_BAD_LENGTH);
    refused("nine members", rokdaum_chain(&host, 0, members, 9), ROKDAUM_BAD_LENGTH);
    refused("member 64", rokdaum_chain(&host, 0, far, 1), ROKDAUM_RANGE);
    refused("channel 2 of 2", rokdaum_chain(&host, 2, members, 1), ROKDAUM_RANGE);
    refused("a member that doesn't live", rokdaum_chain(&host, 0, gone, 1), ROKDAUM_MISSING);
    refused("named twice", rokdaum_chain(&host, 0, twice, 2), ROKDAUM_BUSY);
    refused("ready: no members", rokdaum_ready(&host, 0), ROKDAUM_MISSING);
    refused("ready: channel 2", rokdaum_ready(&host, 2), ROKDAUM_RANGE);
    refused("feed: no members", rokdaum_feed(&host, 0, in, 1, to.out, 1, &to.count), ROKDAUM_MISSING);
    want("chain", rokdaum_chain(&host, 0, members, 1), ROKDAUM_OK);
    want("ready", rokdaum_ready(&host, 0), ROKDAUM_OK);
    refused("chain again", rokdaum_chain(&host, 0, members, 1), ROKDAUM_TAKEN);
    refused("a member of another channel", rokdaum_chain(&host, 1, members, 1), ROKDAUM_BUSY);
    refused("feed: channel 200", rokdaum_feed(&host, 200, in, 1, to.out, 1, &to.count), ROKDAUM_RANGE);
    refused("feed: no sample", rokdaum_feed(&host, 0, in, 0, to.out, 1, &to.count), ROKDAUM_BAD_LENGTH);
    refused("feed: no sample, from a null pointer", rokdaum_feed(&host, 0, 0, 0, to.out, 1, &to.count), ROKDAUM_BAD_LENGTH);
    refused("feed: 1,025 samples", rokdaum_feed(&host, 0, in, 1025, to.out, 1025, &to.count), ROKDAUM_BAD_LENGTH);
    refused("feed: room for fewer", rokdaum_feed(&host, 0, in, 8, to.out, 7, &to.count), ROKDAUM_BAD_LENGTH);
    refused("feed all: room for fewer", rokdaum_feed_all(&host, 0, in, 1025, to.out, 1024, &to.given), ROKDAUM_BAD_LENGTH);
    refused("feed all: channel 1", rokdaum_feed_all(&host, 1, in, 8, to.out, 8, &to.given), ROKDAUM_MISSING);
    want("feed", rokdaum_feed(&host, 0, in, 1024, to.out, 1024, &to.count), ROKDAUM_OK);
    want("as many came out", to.count, 1024);
    want("feed all", rokdaum_feed_all(&host, 0, in, 1025, to.out, 1025, &to.given), ROKDAUM_OK);
    want("as many came out", (long)to.given, 1025);
    want("feed all of nothing", rokdaum_feed_all(&host, 0, 0, 0, 0, 0, &to.given), ROKDAUM_OK);
    want("nothing came out", (long)to.given, 0);
    refused("delete: in a channel", rokdaum_delete(&host, 0), ROKDAUM_BUSY);
    refused("unchain: no members", rokdaum_unchain(&host, 1), ROKDAUM_MISSING);
    refused("unchain: channel 2", rokdaum_unchain(&host, 2), ROKDAUM_RANGE);
}

static void memory(void)
{
    refused("step: no such space", rokdaum_step(&host, (rokdaum_space)3, &to.moved), ROKDAUM_BAD_SPACE);
    refused("compact: no such space", rokdaum_compact(&host, (rokdaum_space)4000000, &to.moved), ROKDAUM_BAD_SPACE);
    refused("map: no such space", rokdaum_map(&host, (rokdaum_space)3, to.blocks, ROKDAUM_MAP_BLOCKS, &to.count), ROKDAUM_BAD_SPACE);
    refused("map: room for 263 blocks", rokdaum_map(&host, ROKDAUM_DARAM, to.blocks, ROKDAUM_MAP_BLOCKS - 1, &to.count), ROKDAUM_BAD_LENGTH);
    want("map", rokdaum_map(&host, ROKDAUM_DARAM, to.blocks, ROKDAUM_MAP_BLOCKS, &to.count), ROKDAUM_OK);
    refused("release: group 8", rokdaum_release(&host, 8, &to.moved), ROKDAUM_RANGE);
    refused("stat: group 9", rokdaum_stat(&host, 9, &to.active, &to.count), ROKDAUM_RANGE);
    want("copied", rokdaum_copied(&host, &to.copied), ROKDAUM_OK);
}

static void without_a_host(void)
{
    refused("div_s: 3 / 2", rokdaum_div_s(3, 2, &to.quotient), ROKDAUM_PARAMS);
    refused("div_s: 0 / 0", rokdaum_div_s(0, 0, &to.quotient), ROKDAUM_PARAMS);
    refused("div_s: -1 / 2", rokdaum_div_s(-1, 2, &to.quotient), ROKDAUM_PARAMS);
    want("div_s: 1 / 2", rokdaum_div_s(1, 2, &to.quotient), ROKDAUM_OK);
    want("a half", to.quotient, 16384);
    refused("no such law: encode", rokdaum_g711_encode((rokdaum_law)2, in, to.codes, 2), ROKDAUM_BAD_LAW);
    refused("no such law: decode", rokdaum_g711_decode((rokdaum_law)7, to.codes, to.out, 2), ROKDAUM_BAD_LAW);
    want("nothing to encode", rokdaum_g711_encode(ROKDAUM_MU_LAW, 0, 0, 0), ROKDAUM_OK);
    want("add saturates", rokdaum_add(32767, 1), 32767);
    want("L_mac saturates", rokdaum_l_mac(2147483647, 1, 1), 2147483647);
}

static void dialled_digits(void)
{
    static const int16_t codes[3] = {1, 1, 16}, below[2] = {1, -2};
    refused("null digits", rokdaum_dialled(0, codes, 2, to.dialled, 4, &to.given), ROKDAUM_NULL);
    refused("null codes", rokdaum_dialled(&to.digits, 0, 2, to.dialled, 4, &to.given), ROKDAUM_NULL);
    refused("null dialled", rokdaum_dialled(&to.digits, codes, 2, 0, 4, &to.given), ROKDAUM_NULL);
    refused("null given: dialled", rokdaum_dialled(&to.digits, codes, 2, to.dialled, 4, 0), ROKDAUM_NULL);
    refused("room for fewer digits", rokdaum_dialled(&to.digits, codes, 2, to.dialled, 1, &to.given), ROKDAUM_BAD_LENGTH);
    refused("a code of 16", rokdaum_dialled(&to.digits, codes, 3, to.dialled, 4, &to.given), ROKDAUM_PARAMS);
    refused("a code of -2", rokdaum_dialled(&to.digits, below, 2, to.dialled, 4, &to.given), ROKDAUM_PARAMS);
    prepare();
    to.digits.frames_on = before.digits.frames_on = 0;
    want("digits of no frame", rokdaum_dialled(&to.digits, codes, 2, to.dialled, 4, &to.given), ROKDAUM_PARAMS);
    want_untouched("digits of no frame");
    prepare();
    to.digits.frames_off = before.digits.frames_off = 0;
    want("digits that end at once", rokdaum_dialled(&to.digits, codes, 2, to.dialled, 4, &to.given), ROKDAUM_PARAMS);
    want_untouched("digits that end at once");
    to.digits = (rokdaum_digits)ROKDAUM_DIGITS_A;
    want("no codes", rokdaum_dialled(&to.digits, 0, 0, 0, 0, &to.given), ROKDAUM_OK);
    want("no digits", (long)to.given, 0);
}

int main(void)
{
    every_call_on_what_is_not_open("never opened");
    null_pointers();
    hosts();
    instances();
    channels();
    memory();
    without_a_host();
    dialled_digits();
    want("close with living instances", rokdaum_close(&host), ROKDAUM_OK);
    every_call_on_what_is_not_open("closed");
    want("open again", opened(65536, 65536, 65536, 16), ROKDAUM_OK);
    want("close", rokdaum_close(&host), ROKDAUM_OK);
    memset(&host, 0x5a, sizeof host);
    every_call_on_what_is_not_open("garbage");
    for (int code = 0; code < 32; code++)
        want("each code has its text", rokdaum_error_text((rokdaum_code)code)[0] != 0, 1);
    return told();
}
