/* SPDX-License-Identifier: Apache-2.0
 * Memory is moved while a filter is active. The map is drawn before and after, and the filter's output doesn't change. */
#include <rokdaum.h>
#include <stdio.h>
#include <stdlib.h>

enum { WORDS = 8192, COLUMNS = 64 };

static void must(rokdaum_code code)
{
    if (code != ROKDAUM_OK) {
        fprintf(stderr, "moving: %s\n", rokdaum_error_text(code));
        exit(1);
    }
}

/* A column stands for 128 words: the number of the instance that has some of them, `s` for scratch memory, `.` for free words. */
static void draw(rokdaum *host, rokdaum_space space, const char *name)
{
    rokdaum_block blocks[ROKDAUM_MAP_BLOCKS];
    char row[COLUMNS + 1];
    uint32_t n;
    must(rokdaum_map(host, space, blocks, ROKDAUM_MAP_BLOCKS, &n));
    for (int c = 0; c < COLUMNS; c++)
        row[c] = '.';
    row[COLUMNS] = 0;
    for (uint32_t k = 0; k < n; k++)
        for (uint32_t w = blocks[k].place; w < blocks[k].place + blocks[k].size; w++)
            row[w * COLUMNS / WORDS] = blocks[k].scratch ? 's' : (char)('0' + blocks[k].number % 10);
    printf("%-8s |%s|\n", name, row);
}

static void draw_all(rokdaum *host)
{
    draw(host, ROKDAUM_DARAM, "daram");
    draw(host, ROKDAUM_SARAM, "saram");
    draw(host, ROKDAUM_EXTERNAL, "external");
}

static void feed(rokdaum *host)
{
    const int16_t in[8] = {8000, -8000, 4000, 0, 100, 200, 300, 400};
    int16_t out[8];
    uint32_t n;
    must(rokdaum_feed(host, 0, in, 8, out, 8, &n));
    printf("heard:");
    for (uint32_t k = 0; k < n; k++)
        printf(" %d", out[k]);
    putchar('\n');
}

int main(void)
{
    const rokdaum_options options = {WORDS, WORDS, WORDS, 1, 0, 0};
    const uint8_t members[1] = {3};
    rokdaum host = ROKDAUM_CLOSED;
    int16_t taps[40];
    uint32_t moved;
    uint64_t words;

    for (int i = 0; i < 40; i++)
        taps[i] = 800;
    must(rokdaum_open(&host, &options));
    for (uint8_t i = 0; i < 4; i++)
        must(rokdaum_create(&host, i, ROKDAUM_FIR, i, taps, 40, 0));
    must(rokdaum_chain(&host, 0, members, 1));
    feed(&host); /* instance 3 is active from here on */
    for (uint8_t i = 0; i < 3; i += 2)
        must(rokdaum_delete(&host, i));
    puts("instances 0 and 2 are deleted:");
    draw_all(&host);
    for (int space = ROKDAUM_DARAM; space <= ROKDAUM_EXTERNAL; space++) {
        must(rokdaum_compact(&host, (rokdaum_space)space, &moved));
        printf("space %d: %u blocks moved\n", space, moved);
    }
    must(rokdaum_copied(&host, &words));
    printf("%llu words were copied:\n", (unsigned long long)words);
    draw_all(&host);
    feed(&host);
    must(rokdaum_close(&host));
    return 0;
}
