/* SPDX-License-Identifier: Apache-2.0
 * The job of dsp_console as a C programmer would write it: nothing here is proved.
 *
 *     console [--daram W] [--saram W] [--external W] [--poison W] [--in8 MASK] [--out8 MASK] SCRIPT IN OUT [IN OUT ..]
 *
 * It takes the same scripts and files as dsp_console and gives the same replies, outputs and status. It lacks --explain, --help,
 * --version and options with an =, may keep its replies until the script has ended, and empties each OUT when it opens it. Words of the files are those
 * of the processor, the low byte first. */
#include "host.h"
#include <ctype.h>
#include <stdio.h>
#include <stdlib.h>
#include <string.h>

enum { LINE_MAX_BYTES = 1024, WORDS_MAX = LINE_MAX_BYTES / 2 + 1, TOO_BIG = 1000000, BUFFER = 1 << 16 };
enum { WRONG_USE = 2, READ_FAILED = 3, WRITE_FAILED = 4 };
static const long long SCRIPT_MAX_BYTES = 1000000000;

static const char *const space_name[SPACES] = {"daram", "saram", "external"};
static const char *const kind_name[KINDS] = {"fir", "decim", "biquad", "tone", "g711"};
static const char *const verb_name[] = {"set", "reset", "get"};
static const char *const refusal[] = {"", "long", "syntax", "range", "taken", "missing", "params", "room", "busy", "command", "short"};

/* A channel's files, and the bytes of a sample in each. */
struct port { FILE *in, *out; int in_width, out_width; };
static struct port ports[CHANNELS];
static unsigned long long refused;

/* What the command line asks for. */
struct options { long size[SPACES], poison, in8, out8; const char *file[1 + 2 * CHANNELS]; int files; };

static void die(int status, const char *why)
{
    fprintf(stderr, "dsp_console: %s\n", why);
    exit(status);
}

/* ---- ports ------------------------------------------------------------------------------------- */

/* Reads n samples, and says whether they were there; a part of them is used up. */
static int read_samples(const struct port *p, word16 *samples, int n)
{
    uint8_t bytes[FEED_MAX];
    void *to = p->in_width == 1 ? (void *)bytes : (void *)samples;
    if (fread(to, (size_t)p->in_width, (size_t)n, p->in) < (size_t)n) {
        if (ferror(p->in))
            die(READ_FAILED, "read failed");
        return 0;
    }
    for (int i = 0; p->in_width == 1 && i < n; i++)
        samples[i] = bytes[i];
    return 1;
}

static void write_samples(const struct port *p, const word16 *samples, int n)
{
    uint8_t bytes[FEED_MAX];
    for (int i = 0; p->out_width == 1 && i < n; i++)
        bytes[i] = (uint8_t)samples[i];
    const void *from = p->out_width == 1 ? (const void *)bytes : (const void *)samples;
    if (fwrite(from, (size_t)p->out_width, (size_t)n, p->out) < (size_t)n)
        die(WRITE_FAILED, "write failed");
}

/* ---- lines ------------------------------------------------------------------------------------- */

static char *word[WORDS_MAX];
static int word_count;

/* Cuts the line into words, each of which ends with a 0. */
static void split(char *line, char *end)
{
    word_count = 0;
    for (char *p = line; p < end; p++) {
        while (p < end && (*p == ' ' || *p == '\t'))
            p++;
        if (p == end)
            return;
        word[word_count++] = p;
        while (p < end && *p != ' ' && *p != '\t')
            p++;
        *p = 0;
    }
}

static int is_number(const char *s, int *v)
{
    int minus = *s == '-', n = 0;
    s += minus;
    if (!isdigit((unsigned char)*s))
        return 0;
    for (; isdigit((unsigned char)*s); s++)
        n = n > TOO_BIG ? n : 10 * n + *s - '0';
    *v = minus ? -n : n;
    return *s == 0;
}

/* The words from one on as numbers. */
static int are_numbers(int from, int *v)
{
    for (int k = from; k < word_count; k++)
        if (!is_number(word[k], v + k - from))
            return 0;
    return 1;
}

/* The place of a name in a list, or -1. */
static int find(const char *name, const char *const *names, int n)
{
    for (int k = 0; k < n; k++)
        if (!strcmp(name, names[k]))
            return k;
    return -1;
}

static int are_in(const int *v, int n, int low, int high)
{
    for (int k = 0; k < n; k++)
        if (v[k] < low || v[k] > high)
            return 0;
    return 1;
}

static int are_bytes(const int *v, int n) { return are_in(v, n, 0, 255); }
static int are_words(const int *v, int n) { return n <= PARAMETERS_MAX && are_in(v, n, WORD16_MIN, WORD16_MAX); }

/* ---- replies ----------------------------------------------------------------------------------- */

static void reply(enum answer answer)
{
    if (answer == OK) {
        puts("ok");
    } else {
        refused++;
        printf("no %d %s\n", answer, refusal[answer]);
    }
}

static void reply_number(enum answer answer, int k)
{
    if (answer == OK)
        printf("ok %d\n", k);
    else
        reply(answer);
}

/* ---- commands: each says whether its words are one, and replies then ---------------------------- */

static int serve_feed(int *v)
{
    static word16 samples[FEED_MAX];
    int made = 0;
    if (word_count != 3 || !are_numbers(1, v))
        return 0;
    enum answer answer = are_bytes(v, 1) && are_in(v + 1, 1, 1, FEED_MAX) ? is_chained(v[0]) : RANGE;
    if (answer == OK && !read_samples(&ports[v[0]], samples, v[1]))
        answer = SHORT;
    if (answer == OK) {
        const word16 *out = pass(v[0], samples, v[1], &made);
        write_samples(&ports[v[0]], out, made);
    }
    reply_number(answer, made);
    return 1;
}

static int serve_create(int *v)
{
    int kind = word_count < 4 ? -1 : find(word[2], kind_name, KINDS), n = word_count - 4;
    if (kind < 0 || !is_number(word[1], &v[0]) || !is_number(word[3], &v[1]) || !are_numbers(4, v + 2))
        return 0;
    reply(are_bytes(v, 2) && are_words(v + 2, n) ? create(v[0], (enum kind)kind, v[1], v + 2, n) : RANGE);
    return 1;
}

static int serve_control(int *v)
{
    int verb = word_count < 3 ? -1 : find(word[2], verb_name, 3), n = word_count - 3, count = 0;
    word16 got[PARAMETERS_MAX];
    if (verb < 0 || (verb != SET && n) || !is_number(word[1], &v[0]) || !are_numbers(3, v + 1))
        return 0;
    enum answer answer = are_bytes(v, 1) && are_words(v + 1, n) ? control(v[0], (enum verb)verb, v + 1, n, got, &count) : RANGE;
    if (answer != OK) {
        reply(answer);
        return 1;
    }
    printf("ok");
    for (int k = 0; k < count; k++)
        printf(" %d", got[k]);
    putchar('\n');
    return 1;
}

static int serve_chain(int *v)
{
    int members = word_count - 2;
    if (word_count < 3 || !are_numbers(1, v))
        return 0;
    reply(members <= MEMBERS_MAX && are_bytes(v, members + 1) ? chain(v[0], v + 1, members) : RANGE);
    return 1;
}

static int serve_delete(int *v)
{
    if (word_count != 2 || !are_numbers(1, v))
        return 0;
    reply(are_bytes(v, 1) ? delete(v[0]) : RANGE);
    return 1;
}

static int serve_unchain(int *v)
{
    if (word_count != 2 || !are_numbers(1, v))
        return 0;
    reply(are_bytes(v, 1) ? unchain(v[0]) : RANGE);
    return 1;
}

static int serve_release(int *v)
{
    if (word_count != 2 || !are_numbers(1, v))
        return 0;
    if (are_in(v, 1, 0, GROUPS - 1))
        reply_number(OK, release(v[0]));
    else
        reply(RANGE);
    return 1;
}

static int serve_stat(int *v)
{
    unsigned activations;
    if (word_count != 2 || !are_numbers(1, v))
        return 0;
    if (!are_in(v, 1, 0, GROUPS - 1)) {
        reply(RANGE);
        return 1;
    }
    int active = active_member(v[0], &activations);
    if (active < 0)
        printf("ok - %u\n", activations);
    else
        printf("ok %d %u\n", active, activations);
    return 1;
}

static int serve_compact(int *v)
{
    int space = word_count == 2 ? find(word[1], space_name, SPACES) : -1;
    (void)v;
    if (space >= 0)
        reply_number(OK, compact(space, *word[0] == 's' ? 1 : BLOCKS_MAX));
    return space >= 0;
}

static int serve_map(int *v)
{
    int space = word_count == 2 ? find(word[1], space_name, SPACES) : -1;
    struct shown blocks[BLOCKS_MAX];
    (void)v;
    if (space < 0)
        return 0;
    int n = map(space, blocks);
    printf("ok");
    for (const struct shown *b = blocks; b < blocks + n; b++)
        if (b->owner < INSTANCES)
            printf(" i%d.r%d@%d+%d", b->owner, b->record, b->place, b->size);
        else
            printf(" g%d@%d+%d", b->owner - INSTANCES, b->place, b->size);
    putchar('\n');
    return 1;
}

static const struct command { const char *name; int (*serve)(int *); } commands[] = {
    {"feed", serve_feed}, {"stat", serve_stat}, {"create", serve_create}, {"delete", serve_delete}, {"control", serve_control},
    {"compact", serve_compact}, {"step", serve_compact}, {"chain", serve_chain}, {"unchain", serve_unchain},
    {"release", serve_release}, {"map", serve_map},
};

static void serve(void)
{
    int numbers[WORDS_MAX];
    for (const struct command *c = commands; c < commands + sizeof commands / sizeof *commands; c++)
        if (!strcmp(word[0], c->name)) {
            if (!c->serve(numbers))
                reply(SYNTAX);
            return;
        }
    reply(SYNTAX);
}

/* A line without its line feed. A 0 within it would end a word early. */
static void serve_line(char *line, int n)
{
    if (n > LINE_MAX_BYTES) {
        reply(LONG);
        return;
    }
    if (n > 0 && line[n - 1] == '\r')
        n--;
    int has_zero = memchr(line, 0, (size_t)n) != NULL;
    split(line, line + n);
    if (word_count == 0)
        return;
    if (has_zero)
        reply(SYNTAX);
    else
        serve();
}

static void serve_script(FILE *script)
{
    static char line[LINE_MAX_BYTES + 2];
    long long left = SCRIPT_MAX_BYTES;
    int n = 0, c;
    while ((c = getc_unlocked(script)) != EOF) {
        if (left-- == 0)
            die(READ_FAILED, "read failed");
        if (c == '\n') {
            serve_line(line, n);
            n = 0;
        } else if (n <= LINE_MAX_BYTES) {
            line[n++] = (char)c; /* one more than a line may have tells that it is too long */
        }
    }
    if (ferror(script))
        die(READ_FAILED, "read failed");
    if (n > 0)
        serve_line(line, n);
}

/* ---- the command line -------------------------------------------------------------------------- */

static long option(const char *text, long most)
{
    char *end;
    long v = text && isdigit((unsigned char)*text) ? strtol(text, &end, 10) : -1;
    if (v < 0 || *end || v > most)
        die(WRONG_USE, "an option takes a number: [--daram W] [--saram W] [--external W] [--poison W] [--in8 MASK] [--out8 MASK]");
    return v;
}

static struct options read_options(char **argv)
{
    struct options o = {.size = {65536, 65536, 65536}, .poison = NO_POISON};
    const struct { const char *name; long *value, most; } named[] = {
        {"--daram", &o.size[DARAM], UINT32_MAX}, {"--saram", &o.size[SARAM], UINT32_MAX}, {"--external", &o.size[EXTERNAL], UINT32_MAX},
        {"--poison", &o.poison, 65535}, {"--in8", &o.in8, 65535}, {"--out8", &o.out8, 65535},
    };
    for (argv++; *argv; argv++) {
        size_t k = 0;
        while (k < sizeof named / sizeof *named && strcmp(*argv, named[k].name))
            k++;
        if (k < sizeof named / sizeof *named) {
            *named[k].value = option(argv[1], named[k].most);
            argv++;
        } else if (o.files++ < 1 + 2 * CHANNELS) {
            o.file[o.files - 1] = *argv;
        }
    }
    if (o.files < 3 || o.files % 2 == 0 || o.files > 1 + 2 * CHANNELS)
        die(WRONG_USE, "ports come in pairs, 1 to 16");
    for (int s = 0; s < SPACES; s++)
        if (o.size[s] > 65536 || o.size[s] % 4)
            die(WRONG_USE, "a space is 0 to 65536 words, a multiple of 4");
    return o;
}

static FILE *open_file(const char *name, const char *mode)
{
    FILE *file = fopen(name, mode);
    if (!file)
        die(*mode == 'r' ? READ_FAILED : WRITE_FAILED, *mode == 'r' ? "read failed" : "write failed");
    setvbuf(file, NULL, _IOFBF, BUFFER);
    return file;
}

int main(int argc, char **argv)
{
    (void)argc;
    struct options o = read_options(argv);
    int sizes[SPACES] = {(int)o.size[DARAM], (int)o.size[SARAM], (int)o.size[EXTERNAL]}, channels = o.files / 2;
    FILE *script = open_file(o.file[0], "rb");
    for (int c = 0; c < channels; c++)
        ports[c] = (struct port){open_file(o.file[1 + 2 * c], "rb"), open_file(o.file[2 + 2 * c], "wb"), o.in8 >> c & 1 ? 1 : 2, o.out8 >> c & 1 ? 1 : 2};
    setvbuf(stdout, NULL, _IOFBF, BUFFER);
    open_host(sizes, (int)o.poison, channels);
    serve_script(script);
    for (int c = 0; c < channels; c++)
        if (fflush(ports[c].out))
            die(WRITE_FAILED, "write failed");
    if (fflush(stdout))
        die(WRITE_FAILED, "write failed");
    return refused ? 1 : 0;
}
