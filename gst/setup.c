/* SPDX-License-Identifier: Apache-2.0 */
#define _POSIX_C_SOURCE 200809L /* strtok_r */
#include "setup.h"

#include <string.h>

static const char *const kinds[] = {"fir", "decim", "biquad", "tone", "g711", "gain", "level", "dtmf", "echo", "adpcm", "signal", "activity"};
static const char *const spaces[] = {"daram", "saram", "external"};
/* One word more than a line may have, so that too many are seen. A channel divides the rate by MOST_FACTOR at most. */
enum { MOST_WORDS = 4 + ROKDAUM_PARAMETER_WORDS + 1, NO_NUMBER = 1 << 20, MOST_FACTOR = 1 << 20 };

GQuark setup_error_quark(void)
{
    return g_quark_from_static_string("rokdaum-setup");
}

const char *setup_kind_name(rokdaum_kind kind)
{
    return kinds[kind];
}

const char *setup_space_name(guint space)
{
    return spaces[space];
}

static int place_of(const char *const *names, guint count, const char *name)
{
    for (guint at = 0; at < count; at++)
        if (strcmp(names[at], name) == 0)
            return (int)at;
    return -1;
}

/* The words of a line, cut at spaces and tabs. `line` is written over. */
static guint cut(char *line, char **words)
{
    guint count = 0;
    for (char *at = strtok_r(line, " \t\r", &line); at && count < MOST_WORDS; at = strtok_r(0, " \t\r", &line))
        words[count++] = at;
    return count;
}

/* A number as scripts have it: digits, and a `-` before them. NO_NUMBER for anything else, and for what is out of range. */
static gint number_of(const char *word, gint low, gint high)
{
    const char *digits = word + (*word == '-');
    if (!*digits || strspn(digits, "0123456789") != strlen(digits) || strlen(digits) > 9)
        return NO_NUMBER;
    gint64 value = g_ascii_strtoll(word, 0, 10);
    return value < low || value > high ? NO_NUMBER : (gint)value;
}

static gboolean words_of(char **from, guint count, gint16 *to, const char **why)
{
    for (guint at = 0; at < count; at++) {
        gint word = number_of(from[at], G_MININT16, G_MAXINT16);
        if (word == NO_NUMBER) {
            *why = "a word is a whole number from -32768 to 32767";
            return FALSE;
        }
        to[at] = (gint16)word;
    }
    return TRUE;
}

gint setup_find(const struct setup *setup, guint number)
{
    for (guint at = 0; at < setup->instances; at++)
        if (setup->instance[at].number == number)
            return (gint)at;
    return -1;
}

static const char *create(struct setup *setup, char **words, guint count)
{
    const char *why = 0;
    if (count < 4)
        return "create I KIND G W ..";
    gint number = number_of(words[1], 0, ROKDAUM_INSTANCES - 1), kind = place_of(kinds, G_N_ELEMENTS(kinds), words[2]);
    gint group = number_of(words[3], 0, ROKDAUM_GROUPS - 1);
    if (kind < 0)
        return "a kind is fir, decim, biquad, tone, g711, gain, level, dtmf, echo, adpcm, signal or activity";
    if (number == NO_NUMBER || group == NO_NUMBER)
        return "an instance is 0 to 63, and a group 0 to 7";
    if (setup_find(setup, (guint)number) >= 0)
        return "the instance is there already";
    if (count - 4 > ROKDAUM_PARAMETER_WORDS)
        return "at most 72 words";
    struct setup_instance *made = &setup->instance[setup->instances];
    *made = (struct setup_instance){(guint8)number, (guint8)group, (rokdaum_kind)kind, count - 4, {0}};
    if (!words_of(words + 4, count - 4, made->words, &why))
        return why;
    setup->instances++;
    return 0;
}

static gboolean is_member(const struct setup *setup, guint of)
{
    for (guint chain = 0; chain < setup->chains; chain++)
        for (guint at = 0; at < setup->chain[chain].count; at++)
            if (setup->chain[chain].of[at] == of)
                return TRUE;
    return FALSE;
}

static gboolean is_detector(rokdaum_kind kind)
{
    return kind == ROKDAUM_TONE || kind == ROKDAUM_LEVEL || kind == ROKDAUM_DTMF || kind == ROKDAUM_ACTIVITY;
}

/* For how many words a member gives one: 1 where it has no such parameter, and then the host refuses it. */
static guint period_of(const struct setup_instance *one)
{
    if (one->kind == ROKDAUM_ECHO)
        return 2;
    guint at = one->kind == ROKDAUM_TONE ? 1 : 0;
    gboolean has_one = one->kind == ROKDAUM_DECIM || is_detector(one->kind);
    return has_one && at < one->count && one->words[at] > 0 ? (guint)one->words[at] : 1;
}

static rokdaum_digits digits_of(const struct setup_instance *one)
{
    static const gint16 b[] = ROKDAUM_DTMF_B;
    gboolean is_b = one->kind == ROKDAUM_DTMF && one->count == G_N_ELEMENTS(b) && memcmp(one->words, b, sizeof b) == 0;
    return is_b ? (rokdaum_digits)ROKDAUM_DIGITS_B : (rokdaum_digits)ROKDAUM_DIGITS_A;
}

/* Why a coder of G.726 can't stand where it does, or null. Its codes have 2 to 5 bits, and what is on the pads has whole octets. */
static const char *look_at_coder(const struct setup_instance *one, gboolean first, gboolean last)
{
    gboolean decodes = one->count == 2 && one->words[1] == 1;
    return (decodes && first) || (!decodes && last) ? "codes of G.726 don't leave the element: a channel encodes, and then decodes" : 0;
}

/* An echo canceller needs the samples as they come, pair by pair: before it there is nothing, or a decoder that gives a sample for a code. */
static const char *look_at_canceller(struct setup_chain *chain, gboolean second)
{
    chain->ends = 2;
    return chain->count == 0 || (second && chain->takes != CODES_NONE) ? 0 : "an echo begins its channel, or is second behind a decoder of G.711";
}

/* What one member of a chain means for what the chain takes and gives. */
static const char *look_at_member(struct setup_chain *chain, const struct setup_instance *one, gboolean first, gboolean last)
{
    guint period = chain->period[chain->count] = period_of(one);
    if (one->kind == ROKDAUM_ADPCM)
        return look_at_coder(one, first, last);
    if (one->kind == ROKDAUM_ECHO)
        return look_at_canceller(chain, chain->count == 1);
    if (one->kind == ROKDAUM_DECIM) {
        if (chain->factor > MOST_FACTOR / period)
            return "a channel divides the rate by 1,048,576 at most";
        chain->factor *= period;
    }
    if (is_detector(one->kind)) {
        if (!last)
            return "a detector (tone, level, dtmf, activity) ends its channel";
        chain->is_listener = TRUE;
        chain->kind = one->kind;
        chain->digits = digits_of(one);
    }
    if (one->kind == ROKDAUM_G711 && one->count == 2) {
        enum setup_codes law = one->words[0] == 1 ? CODES_MU : CODES_A;
        if (first && one->words[1] == 1)
            chain->takes = law;
        if (last && one->words[1] == 0)
            chain->gives = law;
    }
    return 0;
}

static const char *join(struct setup *setup, char **words, guint count)
{
    gint number = count < 3 ? NO_NUMBER : number_of(words[1], 0, ROKDAUM_CHANNELS - 1);
    if (number == NO_NUMBER || count > 2 + ROKDAUM_MEMBERS)
        return "chain C I .., a channel of 0 to 15 and 1 to 8 instances";
    for (guint at = 0; at < setup->chains; at++)
        if (setup->chain[at].number == number)
            return "the channel has members already";
    struct setup_chain chain = {.number = (guint8)number, .factor = 1, .ends = 1};
    for (guint at = 2; at < count; at++) {
        gint of = setup_find(setup, (guint)number_of(words[at], 0, ROKDAUM_INSTANCES - 1));
        if (of < 0)
            return "an instance isn't there";
        for (guint other = 0; other < chain.count; other++)
            if (chain.of[other] == (guint)of)
                return "an instance is named twice";
        if (is_member(setup, (guint)of))
            return "an instance is in a channel already";
        const char *why = look_at_member(&chain, &setup->instance[of], at == 2, at + 1 == count);
        if (why)
            return why;
        chain.of[chain.count++] = (guint)of;
    }
    setup->chain[setup->chains++] = chain;
    return 0;
}

static const char *control(struct setup *setup, char **words, guint count)
{
    const char *why = 0;
    gint of = count < 3 ? -1 : setup_find(setup, (guint)number_of(words[1], 0, ROKDAUM_INSTANCES - 1));
    if (count < 3 || strcmp(words[2], "set") != 0)
        return "control I set W ..";
    if (of < 0)
        return "the instance isn't there";
    if (setup->controls == ROKDAUM_INSTANCES || count - 3 > ROKDAUM_PARAMETER_WORDS)
        return "too many words or controls";
    struct setup_control *made = &setup->control[setup->controls];
    made->of = (guint)of;
    made->count = count - 3;
    if (!words_of(words + 3, count - 3, made->words, &why))
        return why;
    setup->controls++;
    return 0;
}

static const char *read_line(struct setup *setup, char **words, guint count)
{
    if (strcmp(words[0], "create") == 0)
        return create(setup, words, count);
    if (strcmp(words[0], "chain") == 0)
        return join(setup, words, count);
    if (strcmp(words[0], "control") == 0)
        return control(setup, words, count);
    return "a setup has create, chain and control I set";
}

/* Channel 0 first, and what all channels have to be. */
static const char *look_at_chains(struct setup *setup)
{
    guint at = 0;
    while (at < setup->chains && setup->chain[at].number != 0)
        at++;
    if (at == setup->chains)
        return "no line chains channel 0";
    struct setup_chain first = setup->chain[at];
    setup->chain[at] = setup->chain[0];
    setup->chain[0] = first;
    for (at = 1; at < setup->chains; at++) {
        if (!setup->chain[at].is_listener)
            return "each channel but 0 ends in a detector (tone, level, dtmf, activity)";
        if (setup->chain[at].takes != first.takes)
            return "each channel hears what channel 0 hears: codes of the same law, or samples";
        if (setup->chain[at].ends != first.ends)
            return "each channel hears what channel 0 hears: two ends of a line, which an echo takes, or one";
    }
    return 0;
}

static void refuse(GError **error, guint line, char *text, const char *why)
{
    char *shown = g_utf8_make_valid(g_strstrip(text), -1);
    g_set_error(error, SETUP_ERROR, 0, "line %u: %s: %s", line, shown, why);
    g_free(shown);
}

struct setup *setup_parse(const char *text, GError **error)
{
    struct setup *setup = g_new0(struct setup, 1);
    char **lines = g_strsplit_set(text, "\n;", -1), *words[MOST_WORDS];
    const char *why = 0;
    guint at = 0;
    for (; lines[at] && !why; at++) {
        char *line = g_strdup(lines[at]), *comment = strchr(line, '#');
        if (comment)
            *comment = 0;
        guint count = cut(line, words);
        if (count)
            why = read_line(setup, words, count);
        g_free(line);
    }
    if (why)
        refuse(error, at, lines[at - 1], why);
    else if ((why = look_at_chains(setup)))
        g_set_error_literal(error, SETUP_ERROR, 0, why);
    g_strfreev(lines);
    if (why)
        g_clear_pointer(&setup, g_free);
    return setup;
}

/* ---- Commands ---- */

static const char *to_instance(struct command *command, char **words, guint count)
{
    const char *why = 0;
    gint number = count < 3 ? NO_NUMBER : number_of(words[1], 0, ROKDAUM_INSTANCES - 1);
    if (number == NO_NUMBER)
        return "control I set W .., control I reset, control I get";
    command->number = (guint)number;
    if (strcmp(words[2], "set") == 0 && count - 3 <= ROKDAUM_PARAMETER_WORDS) {
        command->ask = ASK_SET;
        command->count = count - 3;
        return words_of(words + 3, count - 3, command->words, &why) ? 0 : why;
    }
    if (count != 3 || (strcmp(words[2], "reset") != 0 && strcmp(words[2], "get") != 0))
        return "control I set W .., control I reset, control I get";
    command->ask = words[2][0] == 'r' ? ASK_RESET : ASK_GET;
    return 0;
}

static const char *to_host(struct command *command, char **words, guint count)
{
    static const char *const asked[] = {"stat", "map", "step", "compact", "release"};
    int ask = place_of(asked, G_N_ELEMENTS(asked), words[0]);
    if (ask < 0 || count != 2)
        return "control, stat G, map SPACE, step SPACE, compact SPACE, release G";
    command->ask = (enum ask)(ASK_STAT + ask);
    gboolean group = command->ask == ASK_STAT || command->ask == ASK_RELEASE;
    gint number = group ? number_of(words[1], 0, ROKDAUM_GROUPS - 1) : place_of(spaces, G_N_ELEMENTS(spaces), words[1]);
    if (number == NO_NUMBER || number < 0)
        return group ? "a group is 0 to 7" : "a space is daram, saram or external";
    command->number = (guint)number;
    return 0;
}

gboolean command_parse(const char *text, struct command *command, GError **error)
{
    char *line = g_strdup(text), *words[MOST_WORDS];
    guint count = cut(line, words);
    memset(command, 0, sizeof *command);
    const char *why = !count ? "nothing is asked for" : strcmp(words[0], "control") == 0 ? to_instance(command, words, count) : to_host(command, words, count);
    if (why)
        g_set_error(error, SETUP_ERROR, 0, "%s: %s", *text ? text : "an empty line", why);
    g_free(line);
    return !why;
}
