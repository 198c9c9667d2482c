/* SPDX-License-Identifier: Apache-2.0
 * One host that goes from thread to thread: opened in one, fed by eight under a lock while its blocks move, its scratch memory is
 * poisoned and instances come and go, and closed in another. helgrind and drd find any access of the library's that the lock or a join
 * doesn't order. */
#include "rokdaum.h"
#include "wanted.h"
#include <pthread.h>

enum { THREADS = 8, TURNS = 200, SAMPLES = 160, SPARE = 32 };

static rokdaum host = ROKDAUM_CLOSED;
static pthread_mutex_t lock = PTHREAD_MUTEX_INITIALIZER;
static int wrong;
static const int16_t average[2] = {16384, 16384};

static void must(rokdaum_code code)
{
    wrong += code != ROKDAUM_OK;
}

static void *open_host(void *none)
{
    const rokdaum_options options = {65536, 65536, 65536, THREADS, 1, 12345};
    must(rokdaum_open(&host, &options));
    for (uint8_t k = 0; k < THREADS; k++) {
        must(rokdaum_create(&host, k, ROKDAUM_FIR, k / 2, average, 2, 0));
        must(rokdaum_chain(&host, k, &k, 1));
    }
    return none;
}

/* Makes holes below other blocks, and closes them. */
static void shuffle(uint8_t spare)
{
    uint32_t moved, released;
    must(rokdaum_create(&host, spare, ROKDAUM_FIR, spare % ROKDAUM_GROUPS, average, 2, 0));
    must(rokdaum_step(&host, ROKDAUM_DARAM, &moved));
    must(rokdaum_delete(&host, spare));
    must(rokdaum_compact(&host, ROKDAUM_SARAM, &moved));
    must(rokdaum_release(&host, 0, &released));
}

static void *feed(void *channel_number)
{
    uint8_t channel = *(uint8_t *)channel_number;
    const int16_t in[SAMPLES] = {2, 4};
    int16_t out[SAMPLES];
    for (int turn = 0; turn < TURNS; turn++) {
        uint32_t given = 0;
        pthread_mutex_lock(&lock);
        must(rokdaum_feed(&host, channel, in, SAMPLES, out, SAMPLES, &given));
        wrong += given != SAMPLES || out[0] != 1 || out[1] != 3 || out[2] != 2 || out[3] != 0;
        if (turn % THREADS == channel)
            shuffle((uint8_t)(SPARE + channel));
        pthread_mutex_unlock(&lock);
    }
    return 0;
}

static void *close_host(void *none)
{
    must(rokdaum_close(&host));
    return none;
}

static void by_a_thread(void *(*what)(void *))
{
    pthread_t thread;
    want("a thread starts", pthread_create(&thread, 0, what, 0), 0);
    want("a thread ends", pthread_join(thread, 0), 0);
}

int main(void)
{
    pthread_t threads[THREADS];
    uint8_t channels[THREADS];
    by_a_thread(open_host);
    for (uint8_t k = 0; k < THREADS; k++) {
        channels[k] = k;
        want("a thread starts", pthread_create(&threads[k], 0, feed, &channels[k]), 0);
    }
    for (int k = 0; k < THREADS; k++)
        want("a thread ends", pthread_join(threads[k], 0), 0);
    by_a_thread(close_host);
    want("calls that were refused, and wrong samples", wrong, 0);
    return told();
}
