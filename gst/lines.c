/* SPDX-License-Identifier: Apache-2.0 */
#include "lines.h"

struct shared_host {
    char *name; /* null where it is of one element */
    guint users;
    rokdaum_options options;
    GMutex lock;      /* guards what stands below */
    guint64 numbers;  /* a bit for each instance that lives */
    guint32 channels; /* a bit for each channel that has members */
    rokdaum handle;
};

static GMutex all_lock;
static GHashTable *all; /* hosts by name */

static void refuse(GError **error, rokdaum_code code, const char *what)
{
    g_set_error(error, SETUP_ERROR, (gint)code, "%s: %s", what, rokdaum_error_text(code));
}

static shared_host *host_open(const char *name, const rokdaum_options *options, GError **error)
{
    shared_host *host = g_new0(shared_host, 1);
    rokdaum_code code = rokdaum_open(&host->handle, options);
    if (code != ROKDAUM_OK) {
        refuse(error, code, "open a host");
        g_free(host);
        return 0;
    }
    g_mutex_init(&host->lock);
    host->options = *options;
    host->name = name && *name ? g_strdup(name) : 0;
    return host;
}

/* Whether a host that is open has the sizes and the poison that are said. */
static gboolean suits(const shared_host *host, const struct host_options *options, GError **error)
{
    const guint32 has[3] = {host->options.daram, host->options.saram, host->options.external};
    const guint32 asked[3] = {options->with.daram, options->with.saram, options->with.external};
    for (guint space = 0; space < G_N_ELEMENTS(has); space++)
        if (options->says_size[space] && asked[space] != has[space]) {
            g_set_error(error, SETUP_ERROR, 0, "host %s is open with %u words of %s, and %u are asked for: its elements name the same sizes", host->name, has[space], setup_space_name(space),
                        asked[space]);
            return FALSE;
        }
    gboolean alike = host->options.poisoned == options->with.poisoned && (!options->with.poisoned || host->options.poison == options->with.poison);
    if (options->says_poison && !alike) {
        g_set_error(error, SETUP_ERROR, 0, "host %s is open with another poison: its elements name the same one", host->name);
        return FALSE;
    }
    return TRUE;
}

shared_host *host_take(const char *name, const struct host_options *options, GError **error)
{
    gboolean named = name && *name;
    g_mutex_lock(&all_lock);
    if (!all)
        all = g_hash_table_new(g_str_hash, g_str_equal);
    shared_host *host = named ? g_hash_table_lookup(all, name) : 0;
    if (host && !suits(host, options, error))
        host = 0;
    else if (!host && (host = host_open(name, &options->with, error)) && named)
        g_hash_table_insert(all, host->name, host);
    if (host)
        host->users++;
    g_mutex_unlock(&all_lock);
    return host;
}

void host_put(shared_host *host)
{
    g_mutex_lock(&all_lock);
    gboolean last = --host->users == 0;
    if (last && host->name)
        g_hash_table_remove(all, host->name);
    g_mutex_unlock(&all_lock);
    if (!last)
        return;
    rokdaum_close(&host->handle);
    g_mutex_clear(&host->lock);
    g_free(host->name);
    g_free(host);
}

/* ---- Lines ---- */

static gint least_free(guint64 taken, guint end)
{
    for (guint at = 0; at < end; at++)
        if (!(taken >> at & 1))
            return (gint)at;
    return -1;
}

/* Takes away the first `chains` chains and the first `instances` instances of a line. */
static void unmake(shared_host *host, const struct line *line, guint chains, guint instances)
{
    for (guint at = 0; at < chains; at++) {
        rokdaum_unchain(&host->handle, line->channels[at]);
        host->channels &= ~(1u << line->channels[at]);
    }
    for (guint at = 0; at < instances; at++) {
        rokdaum_delete(&host->handle, line->numbers[at]);
        host->numbers &= ~(G_GUINT64_CONSTANT(1) << line->numbers[at]);
    }
}

static gboolean make_instance(shared_host *host, const struct setup_instance *one, guint8 *number, GError **error)
{
    rokdaum_space full = ROKDAUM_DARAM;
    gint free = least_free(host->numbers, ROKDAUM_INSTANCES);
    rokdaum_code code = free < 0 ? ROKDAUM_TAKEN : rokdaum_create(&host->handle, (guint8)free, one->kind, one->group, one->words, one->count, &full);
    if (code == ROKDAUM_OK) {
        *number = (guint8)free;
        host->numbers |= G_GUINT64_CONSTANT(1) << free;
        return TRUE;
    }
    g_set_error(error, SETUP_ERROR, (gint)code, "create %u %s: %s%s%s", one->number, setup_kind_name(one->kind),
                free < 0 ? "the host has 64 instances already" : rokdaum_error_text(code), code == ROKDAUM_ROOM ? ": " : "",
                code == ROKDAUM_ROOM ? setup_space_name(full) : "");
    return FALSE;
}

static gboolean make_chain(shared_host *host, const struct setup_chain *chain, const struct line *line, guint8 *channel, GError **error)
{
    guint8 members[ROKDAUM_MEMBERS];
    gint free = least_free(host->channels, ROKDAUM_CHANNELS);
    for (guint at = 0; at < chain->count; at++)
        members[at] = line->numbers[chain->of[at]];
    rokdaum_code code = free < 0 ? ROKDAUM_TAKEN : rokdaum_chain(&host->handle, (guint8)free, members, chain->count);
    if (code == ROKDAUM_OK) {
        *channel = (guint8)free;
        host->channels |= 1u << free;
        return TRUE;
    }
    g_set_error(error, SETUP_ERROR, (gint)code, "chain %u: %s", chain->number, free < 0 ? "the host has 16 channels already" : rokdaum_error_text(code));
    return FALSE;
}

static gboolean make(shared_host *host, const struct setup *setup, struct line *line, GError **error)
{
    guint instances = 0, chains = 0;
    gboolean good = TRUE;
    while (good && instances < setup->instances)
        if ((good = make_instance(host, &setup->instance[instances], &line->numbers[instances], error)))
            instances++;
    for (guint at = 0; good && at < setup->controls; at++) {
        const struct setup_control *control = &setup->control[at];
        rokdaum_code code = rokdaum_set(&host->handle, line->numbers[control->of], control->words, control->count);
        if (!(good = code == ROKDAUM_OK))
            refuse(error, code, "control set");
    }
    while (good && chains < setup->chains)
        if ((good = make_chain(host, &setup->chain[chains], line, &line->channels[chains], error)))
            chains++;
    if (!good)
        unmake(host, line, chains, instances);
    return good;
}

gboolean lines_make(shared_host *host, const struct setup *setup, struct line *lines, guint count, GError **error)
{
    guint made = 0;
    g_mutex_lock(&host->lock);
    while (made < count && make(host, setup, &lines[made], error))
        made++;
    for (guint at = 0; made < count && at < made; at++)
        unmake(host, &lines[at], setup->chains, setup->instances);
    g_mutex_unlock(&host->lock);
    return made == count;
}

void lines_drop(shared_host *host, const struct setup *setup, const struct line *lines, guint count)
{
    g_mutex_lock(&host->lock);
    for (guint at = 0; at < count; at++)
        unmake(host, &lines[at], setup->chains, setup->instances);
    g_mutex_unlock(&host->lock);
}

void line_reset(shared_host *host, const struct setup *setup, const struct line *line)
{
    g_mutex_lock(&host->lock);
    for (guint at = 0; at < setup->instances; at++)
        rokdaum_reset(&host->handle, line->numbers[at]);
    g_mutex_unlock(&host->lock);
}

rokdaum_code line_feed(shared_host *host, const struct line *line, guint chain, const gint16 *in, gsize count, gint16 *out, gsize room, guint32 *given)
{
    g_mutex_lock(&host->lock);
    rokdaum_code code = rokdaum_feed(&host->handle, line->channels[chain], in, count, out, room, given);
    g_mutex_unlock(&host->lock);
    return code;
}

/* ---- Commands ---- */

static char *refusal(rokdaum_code code)
{
    static const char *const names[] = {[ROKDAUM_RANGE] = "range", [ROKDAUM_TAKEN] = "taken", [ROKDAUM_MISSING] = "missing", [ROKDAUM_PARAMS] = "params",
                                        [ROKDAUM_ROOM] = "room", [ROKDAUM_BUSY] = "busy", [ROKDAUM_COMMAND] = "command"};
    return (guint)code < G_N_ELEMENTS(names) && names[code] ? g_strdup_printf("no %d %s", code, names[code]) : g_strdup_printf("no %d %s", code, rokdaum_error_text(code));
}

static char *shown_words(rokdaum *handle, guint8 number)
{
    gint16 words[ROKDAUM_PARAMETER_WORDS];
    guint32 count = 0;
    rokdaum_code code = rokdaum_get(handle, number, words, ROKDAUM_PARAMETER_WORDS, &count);
    if (code != ROKDAUM_OK)
        return refusal(code);
    GString *said = g_string_new("ok");
    for (guint at = 0; at < count; at++)
        g_string_append_printf(said, " %d", words[at]);
    return g_string_free(said, FALSE);
}

static char *shown_map(rokdaum *handle, rokdaum_space space)
{
    rokdaum_block *blocks = g_new(rokdaum_block, ROKDAUM_MAP_BLOCKS);
    guint32 count = 0;
    rokdaum_code code = rokdaum_map(handle, space, blocks, ROKDAUM_MAP_BLOCKS, &count);
    GString *said = g_string_new("ok");
    for (guint at = 0; code == ROKDAUM_OK && at < count; at++) {
        g_string_append_printf(said, blocks[at].scratch ? " g%u" : " i%u", blocks[at].number);
        if (!blocks[at].scratch)
            g_string_append_printf(said, ".r%u", blocks[at].record);
        g_string_append_printf(said, "@%u+%u", blocks[at].place, blocks[at].size);
    }
    g_free(blocks);
    if (code == ROKDAUM_OK)
        return g_string_free(said, FALSE);
    g_string_free(said, TRUE);
    return refusal(code);
}

static char *shown_stat(rokdaum *handle, guint8 group)
{
    gint32 active = 0;
    guint32 activations = 0;
    rokdaum_code code = rokdaum_stat(handle, group, &active, &activations);
    if (code != ROKDAUM_OK)
        return refusal(code);
    return active < 0 ? g_strdup_printf("ok - %u", activations) : g_strdup_printf("ok %d %u", active, activations);
}

static char *serve_instance(rokdaum *handle, const struct setup *setup, const struct line *lines, guint count, const struct command *command)
{
    gint of = setup_find(setup, command->number);
    if (of < 0 || !count)
        return refusal(ROKDAUM_MISSING);
    if (command->ask == ASK_GET)
        return shown_words(handle, lines[0].numbers[of]);
    rokdaum_code code = ROKDAUM_OK;
    for (guint at = 0; code == ROKDAUM_OK && at < count; at++) {
        guint8 number = lines[at].numbers[of];
        code = command->ask == ASK_RESET ? rokdaum_reset(handle, number) : rokdaum_set(handle, number, command->words, command->count);
    }
    return code == ROKDAUM_OK ? g_strdup("ok") : refusal(code);
}

static char *serve_host(rokdaum *handle, const struct command *command)
{
    guint32 count = 0;
    rokdaum_code code;
    if (command->ask == ASK_STAT)
        return shown_stat(handle, (guint8)command->number);
    if (command->ask == ASK_MAP)
        return shown_map(handle, (rokdaum_space)command->number);
    if (command->ask == ASK_RELEASE)
        code = rokdaum_release(handle, (guint8)command->number, &count);
    else if (command->ask == ASK_STEP)
        code = rokdaum_step(handle, (rokdaum_space)command->number, &count);
    else
        code = rokdaum_compact(handle, (rokdaum_space)command->number, &count);
    return code == ROKDAUM_OK ? g_strdup_printf("ok %u", count) : refusal(code);
}

char *lines_serve(shared_host *host, const struct setup *setup, const struct line *lines, guint count, const struct command *command)
{
    g_mutex_lock(&host->lock);
    char *said = command->ask <= ASK_GET ? serve_instance(&host->handle, setup, lines, count, command) : serve_host(&host->handle, command);
    g_mutex_unlock(&host->lock);
    return said;
}
