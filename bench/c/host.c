/* SPDX-License-Identifier: Apache-2.0
 * The host over plain static arrays: of each space its words and a sorted list of blocks. */
#include "host.h"
#include <limits.h>
#include <string.h>

enum attribute { PERSIST, SCRATCH, WRITE_ONCE };

/* `holders` has a bit for each instance that uses the block, or none for a group's. */
struct block { int place, size, align, record, group; uint64_t holders; };
struct record { int size, align, space; enum attribute attribute; int place; };

struct instance {
    int living, group, count, records, channel;
    enum kind kind;
    word16 parameters[PARAMETERS_MAX];
    struct record record[4];
};

/* A size of 0: the group has no block in that space. */
struct group { int members, active; unsigned activations; int size[SPACES], align[SPACES], place[SPACES]; };
struct channel { int living, count, member[MEMBERS_MAX]; };

static word16 words[SPACES][65536 + PAD];
static struct block blocks[SPACES][BLOCKS_MAX + 1];
static int block_count[SPACES], space_size[SPACES], poison_word, channel_count;
static struct instance instances[INSTANCES];
static struct group groups[GROUPS];
static struct channel channels[CHANNELS];

static int round_up(int v, int align) { return (v + align - 1) & -align; }
static int is_in(int v, int low, int high) { return low <= v && v <= high; }

static void fill(int space, int place, int size)
{
    for (int w = 0; poison_word != NO_POISON && w < size; w++)
        words[space][place + w] = (word16)poison_word;
}

void open_host(const int sizes[SPACES], int poison, int count)
{
    for (int s = 0; s < SPACES; s++)
        space_size[s] = sizes[s];
    for (int g = 0; g < GROUPS; g++)
        groups[g].active = -1;
    poison_word = poison;
    channel_count = count;
}

/* ---- blocks ------------------------------------------------------------------------------------ */

/* Places a block at the least multiple of its alignment, and answers where, or -1. */
static int place_block(int space, struct block new)
{
    struct block *b = blocks[space];
    int i = 0, n = block_count[space];
    new.place = 0;
    new.size = round_up(new.size, 4);
    for (; i < n && b[i].place - new.place < new.size; i++)
        new.place = round_up(b[i].place + b[i].size, new.align);
    if (new.place + new.size > space_size[space])
        return -1;
    memmove(b + i + 1, b + i, (size_t)(n - i) * sizeof *b);
    b[i] = new;
    block_count[space]++;
    fill(space, new.place, new.size);
    return new.place;
}

static struct block *block_at(int space, int place)
{
    struct block *b = blocks[space];
    int low = 0, high = block_count[space] - 1;
    while (low < high) {
        int middle = (low + high) / 2;
        if (b[middle].place < place)
            low = middle + 1;
        else
            high = middle;
    }
    return b + low;
}

static void free_block(int space, int place)
{
    struct block *b = block_at(space, place), *end = blocks[space] + --block_count[space];
    memmove(b, b + 1, (size_t)(end - b) * sizeof *b);
}

/* Tells everyone who uses a block where it stands now. */
static void tell(int space, const struct block *b)
{
    if (!b->holders)
        groups[b->group].place[space] = b->place;
    for (uint64_t left = b->holders; left; left &= left - 1)
        instances[__builtin_ctzll(left)].record[b->record].place = b->place;
}

int compact(int space, int most)
{
    int end = 0, moved = 0;
    for (int i = 0; i < block_count[space] && moved < most; i++) {
        struct block *b = &blocks[space][i];
        int to = round_up(end, b->align);
        end = to + b->size;
        if (to == b->place)
            continue;
        memmove(words[space] + to, words[space] + b->place, (size_t)b->size * sizeof(word16));
        b->place = to;
        tell(space, b);
        moved++;
    }
    return moved;
}

int map(int space, struct shown shown[BLOCKS_MAX])
{
    for (int i = 0; i < block_count[space]; i++) {
        const struct block *b = &blocks[space][i];
        int owner = b->holders ? __builtin_ctzll(b->holders) : INSTANCES + b->group;
        shown[i] = (struct shown){owner, b->record, b->place, b->size};
    }
    return block_count[space];
}

/* ---- records ----------------------------------------------------------------------------------- */

static int taps_of(const struct instance *a) { return a->kind == DECIM ? a->count - 1 : a->count; }

static void ask(struct instance *a, int size, int align, int space, enum attribute attribute)
{
    a->record[a->records++] = (struct record){size, align, space, attribute, 0};
}

/* Lists the records of an instance, and answers whether its kind takes the parameters. */
static int make_table(struct instance *a)
{
    const word16 *p = a->parameters;
    int taps = taps_of(a);
    ask(a, 4, 4, EXTERNAL, PERSIST); /* the object, which holds nothing here */
    switch (a->kind) {
    case FIR: /* coefficients and past samples; the delay line */
        ask(a, 2 * taps - 1, 4, SARAM, PERSIST);
        ask(a, taps - 1 + FEED_MAX, 16, DARAM, SCRATCH);
        return is_in(taps, 1, TAPS_MAX);
    case DECIM: /* past samples and the phase; M and the coefficients; the delay line */
        ask(a, taps, 4, SARAM, PERSIST);
        ask(a, taps + 1, 8, EXTERNAL, WRITE_ONCE);
        ask(a, taps - 1 + FEED_MAX, 16, DARAM, SCRATCH);
        return is_in(taps, 1, TAPS_MAX) && is_in(p[0], 1, 16);
    case BIQUAD: /* coefficients and the past; the past */
        ask(a, 9, 4, SARAM, PERSIST);
        ask(a, 4, 4, DARAM, SCRATCH);
        return a->count == 5;
    case TONE: /* k, N, s and the state; the state */
        ask(a, 6, 4, SARAM, PERSIST);
        ask(a, 3, 4, DARAM, SCRATCH);
        return a->count == 3 && is_in(p[1], 1, 1024) && is_in(p[2], 0, 15);
    default: /* the samples of all codes, of a decoder */
        if (a->count == 2 && p[1] == 1)
            ask(a, 256, 8, EXTERNAL, WRITE_ONCE);
        return a->count == 2 && is_in(p[0], 0, 1) && is_in(p[1], 0, 1);
    }
}

/* A record's words. The one scratch record of a kind lies at the beginning of its group's block. */
static word16 *words_of(const struct instance *a, int record)
{
    const struct record *r = &a->record[record];
    return words[r->space] + (r->attribute == SCRATCH ? groups[a->group].place[r->space] : r->place);
}

/* Where an equal instance has the record that never changes, or -1. */
static int shared_place(const struct instance *a, int record)
{
    if (a->record[record].attribute != WRITE_ONCE)
        return -1;
    for (const struct instance *b = instances; b < instances + INSTANCES; b++)
        if (b->living && b->kind == a->kind && b->count == a->count &&
            !memcmp(b->parameters, a->parameters, (size_t)a->count * sizeof *a->parameters))
            return b->record[record].place;
    return -1;
}

/* Places a record of instance i, or joins those who have it. */
static int place_record(struct instance *a, int i, int record)
{
    struct record *r = &a->record[record];
    const uint64_t holder = UINT64_C(1) << i;
    r->place = shared_place(a, record);
    if (r->place >= 0)
        block_at(r->space, r->place)->holders |= holder;
    else
        r->place = place_block(r->space, (struct block){0, r->size, r->align, record, 0, holder});
    return r->place >= 0;
}

/* Leaves the first records of instance i, whose blocks go where nobody else has them. */
static void free_records(const struct instance *a, int i, int records)
{
    for (int k = 0; k < records; k++) {
        const struct record *r = &a->record[k];
        if (r->attribute == SCRATCH)
            continue;
        struct block *b = block_at(r->space, r->place);
        b->holders &= ~(UINT64_C(1) << i);
        if (!b->holders)
            free_block(r->space, r->place);
    }
}

/* ---- activation -------------------------------------------------------------------------------- */

/* The state that an active instance has in scratch memory: its record, where it is kept in record 1, and how many words. */
struct state { int record, at, size; };

static struct state state_of(const struct instance *a)
{
    int taps = taps_of(a);
    switch (a->kind) {
    case FIR: return (struct state){2, taps, taps - 1};
    case DECIM: return (struct state){3, 0, taps - 1};
    case BIQUAD: return (struct state){2, 5, 4};
    case TONE: return (struct state){2, 3, 3};
    default: return (struct state){0, 0, 0};
    }
}

static void deactivate(struct group *g)
{
    if (g->active < 0)
        return;
    const struct instance *a = &instances[g->active];
    struct state s = state_of(a);
    if (s.record)
        memcpy(words_of(a, 1) + s.at, words_of(a, s.record), (size_t)s.size * sizeof(word16));
    g->active = -1;
    for (int space = 0; space < SPACES; space++)
        fill(space, g->place[space], g->size[space]);
}

static void activate(int i)
{
    const struct instance *a = &instances[i];
    struct group *g = &groups[a->group];
    if (g->active == i)
        return;
    deactivate(g);
    struct state s = state_of(a);
    if (s.record)
        memcpy(words_of(a, s.record), words_of(a, 1) + s.at, (size_t)s.size * sizeof(word16));
    g->active = i;
    if (g->activations < UINT_MAX)
        g->activations++;
}

int release(int group)
{
    int was = groups[group].active >= 0;
    deactivate(&groups[group]);
    return was;
}

int active_member(int group, unsigned *activations)
{
    *activations = groups[group].activations;
    return groups[group].active;
}

/* ---- the life of an instance ------------------------------------------------------------------- */

/* A group's blocks as they would have to be for a new member; `place` is -1 where the block that it has does. */
struct wanted { int size[SPACES], align[SPACES], place[SPACES]; };

/* Places the blocks that a group needs for a new member, beside those that it has. All or none. */
static int place_scratch(const struct instance *a, struct wanted *w)
{
    const struct group *g = &groups[a->group];
    for (int s = 0; s < SPACES; s++)
        w->place[s] = -1;
    for (int k = 0; k < a->records; k++) {
        const struct record *r = &a->record[k];
        int s = r->space, size = round_up(r->size, 4);
        if (r->attribute != SCRATCH || (g->size[s] >= size && g->align[s] >= r->align))
            continue;
        w->size[s] = g->size[s] > size ? g->size[s] : size;
        w->align[s] = g->align[s] > r->align ? g->align[s] : r->align;
        w->place[s] = place_block(s, (struct block){0, w->size[s], w->align[s], 0, a->group, 0});
        if (w->place[s] < 0)
            return 0; /* no kind has more than one scratch record, so nothing was placed before it */
    }
    return 1;
}

/* Puts new blocks in the place of a group's old ones, whose active member is deactivated. */
static void replace_scratch(struct group *g, const struct wanted *w)
{
    for (int s = 0; s < SPACES; s++)
        if (w->place[s] >= 0 && g->size[s])
            deactivate(g);
    for (int s = 0; s < SPACES; s++) {
        if (w->place[s] < 0)
            continue;
        if (g->size[s])
            free_block(s, g->place[s]);
        g->place[s] = w->place[s], g->size[s] = w->size[s], g->align[s] = w->align[s];
    }
}

static void initialise(const struct instance *a)
{
    word16 *kept = words_of(a, 1);
    const int taps = taps_of(a);
    switch (a->kind) {
    case FIR:
        memcpy(kept, a->parameters, (size_t)taps * sizeof *kept);
        memset(kept + taps, 0, (size_t)(taps - 1) * sizeof *kept);
        break;
    case DECIM:
        memset(kept, 0, (size_t)taps * sizeof *kept);
        memcpy(words_of(a, 2), a->parameters, (size_t)(taps + 1) * sizeof *kept);
        break;
    case BIQUAD:
        memcpy(kept, a->parameters, 5 * sizeof *kept);
        memset(kept + 5, 0, 4 * sizeof *kept);
        break;
    case TONE:
        memcpy(kept, a->parameters, 3 * sizeof *kept);
        memset(kept + 3, 0, 3 * sizeof *kept);
        break;
    default:
        for (int code = 0; a->parameters[1] && code < 256; code++)
            kept[code] = a->parameters[0] ? decode_mu(code) : decode_a(code);
    }
}

enum answer create(int i, enum kind kind, int group, const int *parameters, int count)
{
    if (i >= INSTANCES || group >= GROUPS)
        return RANGE;
    if (instances[i].living)
        return TAKEN;
    struct instance a = {.living = 1, .kind = kind, .group = group, .count = count, .channel = -1};
    struct wanted scratch;
    int placed = 0, has_room = 1;
    for (int k = 0; k < count; k++)
        a.parameters[k] = (word16)parameters[k];
    if (!make_table(&a))
        return PARAMS;
    for (; has_room && placed < a.records; placed += has_room)
        has_room = a.record[placed].attribute == SCRATCH || place_record(&a, i, placed);
    if (!has_room || !place_scratch(&a, &scratch)) {
        free_records(&a, i, placed);
        return ROOM;
    }
    replace_scratch(&groups[group], &scratch);
    groups[group].members++;
    instances[i] = a;
    initialise(&instances[i]);
    return OK;
}

enum answer delete(int i)
{
    if (i >= INSTANCES)
        return RANGE;
    struct instance *a = &instances[i];
    if (!a->living)
        return MISSING;
    if (a->channel >= 0)
        return BUSY;
    struct group *g = &groups[a->group];
    if (g->active == i)
        deactivate(g);
    free_records(a, i, a->records);
    g->members--;
    for (int s = 0; g->members == 0 && s < SPACES; s++) {
        if (g->size[s])
            free_block(s, g->place[s]);
        g->size[s] = g->align[s] = 0;
    }
    a->living = 0;
    return OK;
}

/* ---- controls ---------------------------------------------------------------------------------- */

static void reset(const struct instance *a)
{
    struct state s = state_of(a);
    if (s.record)
        memset(words_of(a, s.record), 0, (size_t)s.size * sizeof(word16));
    if (a->kind == DECIM)
        words_of(a, 1)[taps_of(a) - 1] = 0;
}

/* The words of GET, and how many. */
static int get(const struct instance *a, word16 *got)
{
    const word16 *from = a->kind == TONE ? words_of(a, 2) : a->kind == G711 ? a->parameters : words_of(a, 1);
    int count = a->kind == TONE || a->kind == DECIM ? 1 : a->count;
    if (a->kind == DECIM)
        from += taps_of(a) - 1;
    memcpy(got, from, (size_t)count * sizeof *got);
    return count;
}

enum answer control(int i, enum verb verb, const int *given, int n, word16 *got, int *count)
{
    *count = 0;
    if (i >= INSTANCES)
        return RANGE;
    const struct instance *a = &instances[i];
    if (!a->living)
        return MISSING;
    if (verb == SET && (a->kind == DECIM || a->kind == G711 || n != (a->kind == TONE ? 1 : a->count)))
        return COMMAND;
    activate(i);
    if (verb == RESET)
        reset(a);
    else if (verb == GET)
        *count = get(a, got);
    else
        for (int k = 0; k < n; k++)
            words_of(a, 1)[k] = (word16)given[k];
    return OK;
}

/* ---- channels ---------------------------------------------------------------------------------- */

enum answer is_chained(int c)
{
    return c >= channel_count ? RANGE : channels[c].living ? OK : MISSING;
}

enum answer chain(int c, const int *members, int n)
{
    uint64_t named = 0;
    int missing = 0, busy = 0;
    if (c >= channel_count)
        return RANGE;
    for (int k = 0; k < n; k++)
        if (members[k] >= INSTANCES)
            return RANGE;
    if (channels[c].living)
        return TAKEN;
    for (int k = 0; k < n; k++) {
        const uint64_t bit = UINT64_C(1) << members[k];
        missing |= !instances[members[k]].living;
        busy |= instances[members[k]].channel >= 0 || (named & bit);
        named |= bit;
    }
    if (missing || busy)
        return missing ? MISSING : BUSY;
    channels[c].living = 1, channels[c].count = n;
    for (int k = 0; k < n; k++) {
        channels[c].member[k] = members[k];
        instances[members[k]].channel = c;
    }
    return OK;
}

enum answer unchain(int c)
{
    enum answer answer = is_chained(c);
    if (answer != OK)
        return answer;
    for (int k = 0; k < channels[c].count; k++)
        instances[channels[c].member[k]].channel = -1;
    channels[c].living = 0;
    return OK;
}

/* Puts the block behind the past samples of the delay line, and afterwards keeps the last ones. */
static void into_line(word16 *line, int taps, const word16 *x, int n) { memcpy(line + taps - 1, x, (size_t)n * sizeof *x); }
static void keep_line(word16 *line, int taps, int n) { memmove(line, line + n, (size_t)(taps - 1) * sizeof *line); }

/* One member's work on a block of n samples. Returns how many come out. */
static int process(const struct instance *a, const word16 *x, int n, word16 *y)
{
    const int taps = taps_of(a);
    word16 *kept = words_of(a, 1), *line;
    switch (a->kind) {
    case FIR:
        into_line(line = words_of(a, 2), taps, x, n);
        fir(kept, taps, line, n, y);
        keep_line(line, taps, n);
        return n;
    case DECIM: {
        const word16 *c = words_of(a, 2);
        word16 *phase = &kept[taps - 1];
        into_line(line = words_of(a, 3), taps, x, n);
        int made = decimate(c + 1, taps, c[0], *phase, line, n, y);
        *phase = (word16)((*phase + n) % c[0]);
        keep_line(line, taps, n);
        return made;
    }
    case BIQUAD:
        biquad(kept, words_of(a, 2), x, n, y);
        return n;
    case TONE:
        return tone((struct tone){kept[0], kept[1], kept[2]}, words_of(a, 2), x, n, y);
    default:
        if (a->parameters[1])
            for (int i = 0; i < n; i++)
                y[i] = kept[x[i] & 255];
        else
            encode(a->parameters[0], x, n, y);
        return n;
    }
}

const word16 *pass(int c, const word16 *samples, int n, int *made)
{
    static word16 buffer[2][FEED_MAX + PAD];
    const word16 *x = samples;
    for (int k = 0; k < channels[c].count && n > 0; k++) {
        activate(channels[c].member[k]);
        n = process(&instances[channels[c].member[k]], x, n, buffer[k & 1]);
        x = buffer[k & 1];
    }
    *made = n;
    return x;
}
