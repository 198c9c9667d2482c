/* SPDX-License-Identifier: Apache-2.0
 * Eight threads with eight hosts each, every host in the thread that opened it. They hear the same, whatever poison they have. */
#include "rokdaum.h"
#include "wanted.h"
#include <pthread.h>

enum { THREADS = 8, HOSTS = 8, TURNS = 40, SAMPLES = 160 };

struct heard {
    uint16_t poison;
    unsigned long sums[HOSTS];
    int failed;
};

static void *serve(void *given)
{
    struct heard *heard = given;
    rokdaum hosts[HOSTS];
    int16_t taps[16], in[SAMPLES], out[SAMPLES];
    const uint8_t members[2] = {0, 1};
    uint32_t n;
    for (int i = 0; i < 16; i++)
        taps[i] = 1500;
    for (int h = 0; h < HOSTS; h++) {
        rokdaum_options options = {4096, 4096, 4096, 1, 1, (int16_t)(heard->poison + h)};
        hosts[h] = (rokdaum)ROKDAUM_CLOSED;
        heard->failed |= rokdaum_open(&hosts[h], &options) || rokdaum_create(&hosts[h], 0, ROKDAUM_FIR, 0, taps, 16, 0)
                         || rokdaum_create(&hosts[h], 1, ROKDAUM_FIR, 0, taps, 16, 0) || rokdaum_chain(&hosts[h], 0, members, 2);
    }
    for (int turn = 0; turn < TURNS; turn++)
        for (int h = 0; h < HOSTS; h++) {
            for (int i = 0; i < SAMPLES; i++)
                in[i] = (int16_t)(turn * 31 + i * 7);
            heard->failed |= rokdaum_feed(&hosts[h], 0, in, SAMPLES, out, SAMPLES, &n) || n != SAMPLES;
            for (int i = 0; i < SAMPLES; i++)
                heard->sums[h] = heard->sums[h] * 31 + (uint16_t)out[i];
        }
    for (int h = 0; h < HOSTS; h++)
        heard->failed |= rokdaum_close(&hosts[h]);
    return 0;
}

int main(void)
{
    static struct heard all[THREADS];
    pthread_t threads[THREADS];
    for (int t = 0; t < THREADS; t++) {
        all[t].poison = (uint16_t)(1000 * t);
        if (pthread_create(&threads[t], 0, serve, &all[t]))
            return 2;
    }
    for (int t = 0; t < THREADS; t++)
        pthread_join(threads[t], 0);
    for (int t = 0; t < THREADS; t++) {
        want("every call is accepted", all[t].failed, 0);
        for (int h = 0; h < HOSTS; h++)
            want("every host gives the same", (long)(all[t].sums[h] - all[0].sums[0]), 0);
    }
    return told();
}
