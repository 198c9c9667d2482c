/* SPDX-License-Identifier: Apache-2.0
 * The C's work on a block by itself: an instance is activated and gets it, with no channel to find, and writes where its caller wants it. A
 * host of its own, with its arithmetic and the loop that feeds it in one unit, so that the compiler may inline what it likes, and the one of
 * bench/c is compiled as it stands. */
#define open_host alone_open_host
#define create alone_create
#define delete alone_delete
#define control alone_control
#define chain alone_chain
#define unchain alone_unchain
#define is_chained alone_is_chained
#define pass alone_pass
#define compact alone_compact
#define release alone_release
#define active_member alone_active_member
#define map alone_map
#define fir alone_fir
#define decimate alone_decimate
#define biquad alone_biquad
#define tone alone_tone
#define encode alone_encode
#include "../c/host.c"
#include "../c/baseline.c"

static int feed(int i, const word16 *samples, int n, word16 *out)
{
    activate(i);
    return process(&instances[i], samples, n, out);
}

int alone_feeds(long feeds, int by_turns, int members, const word16 *in, int n, word16 *out)
{
    static word16 between[2][FEED_MAX];
    int made = 0;
    for (long k = 0; k < feeds; k++) {
        if (members == 1)
            made = feed(by_turns ? (int)(k & 1) : 0, in, n, out);
        else {
            made = feed(0, in, n, between[0]);
            for (int i = 1; i < members; i++)
                made = feed(i, between[(i - 1) & 1], made, i + 1 < members ? between[i & 1] : out);
        }
        __asm__ volatile("" ::: "memory");
    }
    return made;
}
