/* SPDX-License-Identifier: Apache-2.0
 * The job of dsp_console over the library: the same command line, scripts, files and replies. With -DGATEWAY it is that of
 * gateway_console, which has three names more. tests/differential runs it beside the independent model. */
#define _GNU_SOURCE
#include <stdio.h>
#include <stdlib.h>
#include <string.h>
#include "rokdaum.h"

static FILE *in[16], *out[16];
static unsigned in8, out8;
static int ports, refused;
static rokdaum host = ROKDAUM_CLOSED;

static const char *const names[] = {"", "long", "syntax", "range", "taken", "missing", "params", "room", "busy", "command", "short"};
static const char *const kinds[] = {"fir", "decim", "biquad", "tone", "g711", "gain", "level", "dtmf", "echo", "adpcm", "signal", "activity"};
#ifdef GATEWAY
#define NAME "gateway_console"
enum { KINDS = 12 };
#else
#define NAME "dsp_console"
enum { KINDS = 5 };
#endif
static const char *const spaces[] = {"daram", "saram", "external"};

static void no(int code) { refused = 1; printf("no %d %s\n", code, names[code]); }
static int done(int code) { if (code) { no(code); return 0; } return 1; }
static void ok(int code) { if (done(code)) puts("ok"); }

static int find(const char *word, const char *const *list, int n)
{
    for (int i = 0; i < n; i++) if (!strcmp(word, list[i])) return i;
    return -1;
}

/* 1 and the number; 0 where the word is none; a number past the bounds of a long is held at them */
static int number(const char *word, long *n)
{
    const char *d = word[0] == '-' ? word + 1 : word;
    if (!*d || d[strspn(d, "0123456789")]) return 0;
    *n = strtol(word, 0, 10);
    return 1;
}

static void feed(int channel, long n)
{
    static int16_t block[1024], given[1024];
    static unsigned char octets[2048];
    if (channel >= ports) { no(3); return; }
    if (!done(rokdaum_ready(&host, (uint8_t)channel))) return;
    int wide = in8 >> channel & 1 ? 1 : 2, to = out8 >> channel & 1 ? 1 : 2;
    size_t got = fread(octets, wide, (size_t)n, in[channel]);
    if (got < (size_t)n) { no(10); return; }
    for (long k = 0; k < n; k++) block[k] = wide == 1 ? octets[k] : (int16_t)(octets[2 * k] | octets[2 * k + 1] << 8);
    uint32_t count = 0;
    if (!done(rokdaum_feed(&host, (uint8_t)channel, block, (size_t)n, given, 1024, &count))) return;
    for (uint32_t k = 0; k < count; k++) {
        if (to == 1) octets[k] = (unsigned char)given[k];
        else octets[2 * k] = (unsigned char)given[k], octets[2 * k + 1] = (unsigned char)(given[k] >> 8);
    }
    fwrite(octets, to, count, out[channel]);
    printf("ok %u\n", count);
}

static void line(char *text)
{
    static char *w[1200];
    static long v[1200];
    static int16_t words[1200];
    static uint8_t few[1200];
    int n = 0;
    for (char *t = strtok(text, " \t"); t; t = strtok(0, " \t")) w[n++] = t;
    if (!n) return;
    const char *c = w[0];
    int first = 1, numbers, kind = -1, space = -1, last = n;
    enum { CREATE, SET, RESET, GET, DELETE, CHAIN, UNCHAIN, FEED, COMPACT, STEP, RELEASE, STAT, MAP } what;
    if (!strcmp(c, "create")) { what = CREATE; if (n < 4 || (kind = find(w[2], kinds, KINDS)) < 0) { no(2); return; } }
    else if (!strcmp(c, "control")) {
        if (n < 3) { no(2); return; }
        if (!strcmp(w[2], "set")) what = SET;
        else if (!strcmp(w[2], "reset") && n == 3) what = RESET;
        else if (!strcmp(w[2], "get") && n == 3) what = GET;
        else { no(2); return; }
    }
    else if (!strcmp(c, "delete") && n == 2) what = DELETE;
    else if (!strcmp(c, "chain") && n > 2) what = CHAIN;
    else if (!strcmp(c, "unchain") && n == 2) what = UNCHAIN;
    else if (!strcmp(c, "feed") && n == 3) what = FEED;
    else if (!strcmp(c, "compact") && n == 2) what = COMPACT;
    else if (!strcmp(c, "step") && n == 2) what = STEP;
    else if (!strcmp(c, "map") && n == 2) what = MAP;
    else if (!strcmp(c, "release") && n == 2) what = RELEASE;
    else if (!strcmp(c, "stat") && n == 2) what = STAT;
    else { no(2); return; }
    if (what == COMPACT || what == STEP || what == MAP) {
        if ((space = find(w[1], spaces, 3)) < 0) { no(2); return; }
        last = 1;
    }
    numbers = 0;
    for (int k = first; k < last; k++) {
        if (k == 2 && (what == CREATE || what == SET || what == RESET || what == GET)) continue;
        if (!number(w[k], &v[numbers++])) { no(2); return; }
    }
    int range = 0, from = 1;
    if (what == CREATE) {
        from = 2;
        range = v[0] < 0 || v[0] > 63 || v[1] < 0 || v[1] > 7 || numbers - 2 > 72;
    } else if (what == SET) range = v[0] < 0 || v[0] > 63 || numbers - 1 > 72;
    else if (what == RESET || what == GET || what == DELETE) range = v[0] < 0 || v[0] > 63;
    else if (what == CHAIN) {
        range = v[0] < 0 || v[0] > 255 || numbers - 1 > 8;
        for (int k = 1; k < numbers; k++) { if (v[k] < 0 || v[k] > 63) range = 1; few[k - 1] = (uint8_t)v[k]; }
    } else if (what == UNCHAIN) range = v[0] < 0 || v[0] > 255;
    else if (what == FEED) range = v[0] < 0 || v[0] > 255 || v[1] < 1 || v[1] > 1024;
    else if (what == RELEASE || what == STAT) range = v[0] < 0 || v[0] > 7;
    if (what == CREATE || what == SET)
        for (int k = from; k < numbers; k++) { if (v[k] < -32768 || v[k] > 32767) range = 1; words[k - from] = (int16_t)v[k]; }
    if (range) { no(3); return; }
    uint8_t i = (uint8_t)v[0];
    uint32_t count = 0;
    switch (what) {
    case CREATE: ok(rokdaum_create(&host, i, (rokdaum_kind)kind, (uint8_t)v[1], words, (size_t)(numbers - 2), 0)); break;
    case SET: ok(rokdaum_set(&host, i, words, (size_t)(numbers - 1))); break;
    case RESET: ok(rokdaum_reset(&host, i)); break;
    case GET:
        if (!done(rokdaum_get(&host, i, words, 1200, &count))) break;
        printf("ok");
        for (uint32_t k = 0; k < count; k++) printf(" %d", words[k]);
        puts("");
        break;
    case DELETE: ok(rokdaum_delete(&host, i)); break;
    case CHAIN: ok(rokdaum_chain(&host, i, few, (size_t)(numbers - 1))); break;
    case UNCHAIN: ok(rokdaum_unchain(&host, i)); break;
    case FEED: feed(i, v[1]); break;
    case COMPACT: if (done(rokdaum_compact(&host, (rokdaum_space)space, &count))) printf("ok %u\n", count); break;
    case STEP: if (done(rokdaum_step(&host, (rokdaum_space)space, &count))) printf("ok %u\n", count); break;
    case RELEASE: if (done(rokdaum_release(&host, i, &count))) printf("ok %u\n", count); break;
    case STAT: {
        int32_t active;
        if (!done(rokdaum_stat(&host, i, &active, &count))) break;
        if (active < 0) printf("ok - %u\n", count); else printf("ok %d %u\n", active, count);
        break;
    }
    case MAP: {
        static rokdaum_block blocks[ROKDAUM_MAP_BLOCKS];
        if (!done(rokdaum_map(&host, (rokdaum_space)space, blocks, ROKDAUM_MAP_BLOCKS, &count))) break;
        printf("ok");
        for (uint32_t k = 0; k < count; k++) {
            if (blocks[k].scratch) printf(" g%u", blocks[k].number); else printf(" i%u.r%u", blocks[k].number, blocks[k].record);
            printf("@%u+%u", blocks[k].place, blocks[k].size);
        }
        puts("");
        break;
    }
    }
}

int main(int argc, char **argv)
{
    uint32_t sizes[3] = {65536, 65536, 65536};
    rokdaum_options options = ROKDAUM_OPTIONS;
    int a = 1;
    for (; a + 1 < argc && argv[a][0] == '-'; a += 2) {
        long n = strtol(argv[a + 1], 0, 10);
        int s = find(argv[a] + 2, spaces, 3);
        if (s >= 0) sizes[s] = (uint32_t)n;
        else if (!strcmp(argv[a], "--poison")) options.poisoned = 1, options.poison = (int16_t)n;
        else if (!strcmp(argv[a], "--in8")) in8 = (unsigned)n;
        else if (!strcmp(argv[a], "--out8")) out8 = (unsigned)n;
        else return 2;
    }
    if (a >= argc) return 2;
    FILE *script = fopen(argv[a++], "rb");
    if (!script) return 3;
    char **files = argv + a;
    for (; a + 1 < argc; a += 2, ports++)
        if (!(in[ports] = fopen(argv[a], "rb"))) return 3;
    options.daram = sizes[0];
    options.saram = sizes[1];
    options.external = sizes[2];
    options.channels = (uint8_t)ports;
    int code = rokdaum_open(&host, &options);
    if (code) { fprintf(stderr, code == ROKDAUM_BAD_SIZE ? NAME ": a space is 0 to 65536 words, a multiple of 4\n" : NAME ": out of memory\n"); return code == ROKDAUM_NO_MEMORY ? 5 : 2; }
    /* Not before: a run that doesn't begin leaves each OUT as it was. */
    for (int p = 0; p < ports; p++)
        if (!(out[p] = fopen(files[2 * p + 1], "wb"))) return 4;
    char *text = 0;
    size_t held = 0;
    for (ssize_t got; (got = getline(&text, &held, script)) > 0;) {
        size_t n = (size_t)got;
        if (text[n - 1] == '\n') text[--n] = 0;
        if (n > 1024) { no(1); continue; }
        if (n && text[n - 1] == '\r') text[--n] = 0;
        if (memchr(text, 0, n)) { no(2); continue; }
        line(text);
    }
    free(text);
    for (int p = 0; p < ports; p++) fclose(out[p]);
    return rokdaum_close(&host) ? 9 : refused;
}
