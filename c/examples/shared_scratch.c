/* SPDX-License-Identifier: Apache-2.0
 * Two channels whose filters work in one scratch block by turns. Each sounds as if it were alone. */
#include <rokdaum.h>
#include <stdio.h>
#include <stdlib.h>

static void must(rokdaum_code code)
{
    if (code != ROKDAUM_OK) {
        fprintf(stderr, "shared_scratch: %s\n", rokdaum_error_text(code));
        exit(1);
    }
}

int main(void)
{
    static const int16_t low[5] = {2048, 8192, 12288, 8192, 2048}, high[5] = {-2048, -8192, 20480, -8192, -2048};
    const int16_t *filters[2] = {low, high};
    const rokdaum_options options = {4096, 4096, 4096, 2, 0, 0};
    rokdaum host = ROKDAUM_CLOSED;
    rokdaum_block blocks[ROKDAUM_MAP_BLOCKS];
    int16_t in[8] = {1000}, out[8];
    uint32_t n, activations;
    int32_t active;

    must(rokdaum_open(&host, &options));
    for (uint8_t c = 0; c < 2; c++) {
        must(rokdaum_create(&host, c, ROKDAUM_FIR, 0, filters[c], 5, 0)); /* both in scratch group 0 */
        must(rokdaum_chain(&host, c, &c, 1));
    }
    for (uint8_t c = 0; c < 2; c++) {
        must(rokdaum_feed(&host, c, in, 8, out, 8, &n));
        printf("channel %d:", c);
        for (uint32_t k = 0; k < n; k++)
            printf(" %d", out[k]);
        putchar('\n');
    }
    must(rokdaum_stat(&host, 0, &active, &activations));
    printf("group 0: instance %d is active, after %u activations\n", active, activations);
    must(rokdaum_map(&host, ROKDAUM_DARAM, blocks, ROKDAUM_MAP_BLOCKS, &n));
    for (uint32_t k = 0; k < n; k++)
        printf("daram %5u to %5u: %s %u\n", blocks[k].place, blocks[k].place + blocks[k].size - 1,
               blocks[k].scratch ? "scratch of group" : "instance", blocks[k].number);
    must(rokdaum_close(&host));
    return 0;
}
