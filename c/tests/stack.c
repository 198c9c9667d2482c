/* SPDX-License-Identifier: Apache-2.0
 * How much stack each call takes: it is run on a stack that was painted before. docs/C.md says at most how much. */
#define _XOPEN_SOURCE 700
#include "rokdaum.h"
#include "wanted.h"
#include <pthread.h>
#include <stdlib.h>
#include <string.h>

enum { SIZE = 1 << 20, PAINT = 0xa5 };

static rokdaum host = ROKDAUM_CLOSED;
static int16_t taps[64], in[1024], out[1024];
static const uint8_t members[3] = {0, 1, 2};
static rokdaum_block blocks[ROKDAUM_MAP_BLOCKS];
static uint32_t n;
static int32_t active;
static rokdaum_code code;

static void nothing(void) { code = ROKDAUM_OK; }
static void open_host(void)
{
    rokdaum_options options = ROKDAUM_OPTIONS;
    code = rokdaum_open(&host, &options);
}
static void create(void) { code = rokdaum_create(&host, 0, ROKDAUM_FIR, 0, taps, 64, 0); }
static void create_decimator(void) { code = rokdaum_create(&host, 1, ROKDAUM_DECIM, 0, taps, 64, 0); }
static void create_digits(void)
{
    static const int16_t words[] = ROKDAUM_DTMF_A;
    code = rokdaum_create(&host, 2, ROKDAUM_DTMF, 0, words, 7, 0);
}
static void chain_digits(void) { code = rokdaum_chain(&host, 1, members + 2, 1); }
static void feed_digits(void) { code = rokdaum_feed(&host, 1, in, 1024, out, 1024, &n); }
static void unchain_digits(void) { code = rokdaum_unchain(&host, 1); }
static void chain(void) { code = rokdaum_chain(&host, 0, members, 2); }
static void feed(void) { code = rokdaum_feed(&host, 0, in, 1024, out, 1024, &n); }
static void set(void) { code = rokdaum_set(&host, 0, taps, 64); }
static void get(void) { code = rokdaum_get(&host, 0, out, 72, &n); }
static void map(void) { code = rokdaum_map(&host, ROKDAUM_DARAM, blocks, ROKDAUM_MAP_BLOCKS, &n); }
static void compact(void) { code = rokdaum_compact(&host, ROKDAUM_DARAM, &n); }
static void stat(void) { code = rokdaum_stat(&host, 0, &active, &n); }
static void unchain(void) { code = rokdaum_unchain(&host, 0); }
static void delete(void) { code = rokdaum_delete(&host, 1); }
static void close_host(void) { code = rokdaum_close(&host); }

static const struct {
    const char *name;
    void (*run)(void);
    size_t most;
} calls[] = {
    {"open", open_host, 16 << 10}, {"create, a filter", create, 12 << 10}, {"create, a decimator", create_decimator, 12 << 10},
    {"create, digits", create_digits, 12 << 10}, {"chain, digits", chain_digits, 12 << 10}, {"feed, digits", feed_digits, 12 << 10},
    {"unchain, digits", unchain_digits, 12 << 10}, {"chain", chain, 12 << 10}, {"feed", feed, 12 << 10}, {"set", set, 12 << 10}, {"get", get, 12 << 10}, {"map", map, 20 << 10},
    {"compact", compact, 12 << 10}, {"stat", stat, 12 << 10}, {"unchain", unchain, 12 << 10}, {"delete", delete, 12 << 10}, {"close", close_host, 16 << 10},
};

static void *on_a_stack(void *call)
{
    ((void (*const *)(void))call)[0]();
    return 0;
}

static size_t taken(unsigned char *stack, void (*run)(void))
{
    pthread_attr_t attributes;
    pthread_t thread;
    size_t untouched = 0;
    memset(stack, PAINT, SIZE);
    pthread_attr_init(&attributes);
    pthread_attr_setstack(&attributes, stack, SIZE);
    if (pthread_create(&thread, &attributes, on_a_stack, &run))
        exit(2);
    pthread_join(thread, 0);
    pthread_attr_destroy(&attributes);
    while (untouched < SIZE && stack[untouched] == PAINT)
        untouched++;
    return SIZE - untouched;
}

int main(void)
{
    unsigned char *stack = aligned_alloc(4096, SIZE);
    if (!stack)
        return 2;
    taps[0] = 8;
    size_t thread = taken(stack, nothing);
    for (size_t k = 0; k < sizeof calls / sizeof *calls; k++) {
        size_t bytes = taken(stack, calls[k].run) - thread;
        printf("%-20s %6zu bytes\n", calls[k].name, bytes);
        want(calls[k].name, code, ROKDAUM_OK);
        want("the stack is within what docs/C.md says", bytes <= calls[k].most, 1);
    }
    free(stack);
    return told();
}
