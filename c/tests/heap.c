/* SPDX-License-Identifier: Apache-2.0
 * An allocator of the caller's: each of its requests refused in turn; which calls allocate; that everything is given back. */
#include "rokdaum.h"
#include "wanted.h"
#include <stdlib.h>

struct counts {
    int requests, live, refused;
    size_t bytes;
};

static void *allocate(void *context, size_t size, size_t align)
{
    struct counts *counts = context;
    if (counts->requests++ == counts->refused || align > 16)
        return 0;
    counts->live++;
    counts->bytes += size;
    return malloc(size);
}

static void release(void *context, void *memory)
{
    ((struct counts *)context)->live--;
    free(memory);
}

static void every_call(rokdaum *host)
{
    static int16_t in[3000], out[3000], words[72];
    static rokdaum_block blocks[ROKDAUM_MAP_BLOCKS];
    static const int16_t taps[3] = {1000, 2000, 3000}, law[2] = {1, 1};
    static const int16_t level[2] = {4, 4}, digits[7] = ROKDAUM_DTMF_A;
    static const uint8_t members[2] = {0, 1}, others[3] = {3, 4, 5};
    uint32_t n;
    uint64_t copied;
    int32_t active;
    size_t given;
    want("create", rokdaum_create(host, 0, ROKDAUM_FIR, 0, taps, 3, 0), ROKDAUM_OK);
    want("create", rokdaum_create(host, 1, ROKDAUM_G711, 1, law, 2, 0), ROKDAUM_OK);
    want("create", rokdaum_create(host, 2, ROKDAUM_FIR, 0, taps, 3, 0), ROKDAUM_OK);
    want("create", rokdaum_create(host, 3, ROKDAUM_GAIN, 0, taps, 1, 0), ROKDAUM_OK);
    want("create", rokdaum_create(host, 4, ROKDAUM_LEVEL, 0, level, 2, 0), ROKDAUM_OK);
    want("create", rokdaum_create(host, 5, ROKDAUM_DTMF, 0, digits, 7, 0), ROKDAUM_OK);
    want("chain", rokdaum_chain(host, 1, others, 3), ROKDAUM_OK);
    want("feed", rokdaum_feed(host, 1, in, 1024, out, 1024, &n), ROKDAUM_OK);
    want("chain", rokdaum_chain(host, 0, members, 2), ROKDAUM_OK);
    want("ready", rokdaum_ready(host, 0), ROKDAUM_OK);
    want("feed", rokdaum_feed(host, 0, in, 160, out, 160, &n), ROKDAUM_OK);
    want("feed all", rokdaum_feed_all(host, 0, in, 3000, out, 3000, &given), ROKDAUM_OK);
    want("set", rokdaum_set(host, 0, taps, 3), ROKDAUM_OK);
    want("get", rokdaum_get(host, 0, words, 72, &n), ROKDAUM_OK);
    want("reset", rokdaum_reset(host, 0), ROKDAUM_OK);
    want("stat", rokdaum_stat(host, 0, &active, &n), ROKDAUM_OK);
    want("release", rokdaum_release(host, 0, &n), ROKDAUM_OK);
    want("step", rokdaum_step(host, ROKDAUM_DARAM, &n), ROKDAUM_OK);
    want("compact", rokdaum_compact(host, ROKDAUM_EXTERNAL, &n), ROKDAUM_OK);
    want("copied", rokdaum_copied(host, &copied), ROKDAUM_OK);
    want("map", rokdaum_map(host, ROKDAUM_DARAM, blocks, ROKDAUM_MAP_BLOCKS, &n), ROKDAUM_OK);
    want("unchain", rokdaum_unchain(host, 0), ROKDAUM_OK);
    want("delete", rokdaum_delete(host, 0), ROKDAUM_OK);
}

int main(void)
{
    rokdaum host = ROKDAUM_CLOSED;
    rokdaum_options options = {4096, 4096, 4096, 2, 0, 0};
    struct counts counts = {0, 0, 0, 0};
    rokdaum_allocator allocator = {allocate, release, &counts};
    for (counts.refused = 0; counts.refused < 100; counts.refused++) {
        counts.requests = 0;
        counts.bytes = 0;
        rokdaum_code code = rokdaum_open_with(&host, &options, &allocator);
        if (code == ROKDAUM_OK)
            break;
        want("a request is refused", code, ROKDAUM_NO_MEMORY);
        want("nothing stays allocated", counts.live, 0);
        want("nothing is open", rokdaum_ready(&host, 0), ROKDAUM_NOT_OPEN);
    }
    int requests = counts.requests;
    size_t bytes = counts.bytes;
    want("each request was refused once", counts.refused, requests);
    every_call(&host);
    want("nothing but open allocates", counts.requests, requests);
    want("nothing but close frees", counts.live, requests);
    want("close", rokdaum_close(&host), ROKDAUM_OK);
    want("everything is given back", counts.live, 0);
    printf("a host is %d blocks of memory, %zu bytes beside its spaces\n", requests, bytes - 3 * 2 * 4096);
    return told();
}
