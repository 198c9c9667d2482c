/* SPDX-License-Identifier: Apache-2.0
 *
 * rokdaum: an element that passes audio through the line that a setup describes.
 *
 *     gst-launch-1.0 filesrc location=line.wav ! wavparse ! rokdaum setup="create 0 fir 0 16384 16384; chain 0 0" ! ..
 *
 * Each channel of the audio gets a line of its own, and each two where the line cancels echo, up to sixteen in a host. Elements that name the same host share it, and with it its
 * scratch memory. docs/GSTREAMER.md tells more.
 *
 * Two locks, always taken in this order: the element's, held for a buffer, guards its settings and lines; the host's, held for a call.
 * Messages are posted when neither is held, so that a handler of the bus may set properties. */
#include "caps.h"
#include "lines.h"
#include "listener.h"

#include <gst/base/gstbasetransform.h>
#include <gst/gst.h>
#include <string.h>

GST_DEBUG_CATEGORY_STATIC(rokdaum_debug);
#define GST_CAT_DEFAULT rokdaum_debug

enum { BLOCK = ROKDAUM_BLOCK_SAMPLES };
enum on_discont { DISCONT_KEEP, DISCONT_RESET };
enum { PROP_0, PROP_SETUP, PROP_LOCATION, PROP_HOST, PROP_DARAM, PROP_SARAM, PROP_EXTERNAL, PROP_POISON, PROP_MESSAGES, PROP_DIGIT_FRAMES, PROP_DISCONT, PROP_CONTROL };
enum { SIGNAL_COMMAND, SIGNALS };
static guint signals[SIGNALS];

typedef struct _GstRokdaum {
    GstBaseTransform base;

    GMutex lock; /* guards what stands below; a streaming thread holds it for a buffer */
    char *text, *location, *host_name;
    struct host_options options;
    gboolean messages;
    guint digit_frames;
    enum on_discont on_discont;

    struct setup *wanted; /* what `setup` says; null where it says nothing or is wrong */
    GError *wrong;        /* why it is wrong */
    gint renewed;         /* `wanted` was set since the lines were made */
    struct setup *made;   /* what the lines were made of; null where there are none */
    struct passes passes; /* those of `made` */
    shared_host *host;    /* from start to stop */
    struct line lines[MOST_LINES];
    struct progress progress[MOST_LINES][ROKDAUM_CHANNELS];
    guint count; /* lines */
    struct format in, out;

    guint64 given;      /* samples given since `since` */
    GstClockTime since; /* the time at which a sample with the number 0 would begin; for outputs of another rate */
} GstRokdaum;
typedef struct _GstRokdaumClass {
    GstBaseTransformClass base;
} GstRokdaumClass;

#define GST_TYPE_ROKDAUM (gst_rokdaum_get_type())
#define GST_ROKDAUM(object) (G_TYPE_CHECK_INSTANCE_CAST((object), GST_TYPE_ROKDAUM, GstRokdaum))
GType gst_rokdaum_get_type(void);
G_DEFINE_TYPE(GstRokdaum, gst_rokdaum, GST_TYPE_BASE_TRANSFORM)
GST_ELEMENT_REGISTER_DEFINE(rokdaum, "rokdaum", GST_RANK_NONE, GST_TYPE_ROKDAUM)

static GstStaticPadTemplate sink_template = GST_STATIC_PAD_TEMPLATE("sink", GST_PAD_SINK, GST_PAD_ALWAYS, GST_STATIC_CAPS(CAPS));
static GstStaticPadTemplate src_template = GST_STATIC_PAD_TEMPLATE("src", GST_PAD_SRC, GST_PAD_ALWAYS, GST_STATIC_CAPS(CAPS));

static void warn_of_setup(GstRokdaum *self, const GError *error)
{
    GST_ELEMENT_WARNING(self, RESOURCE, SETTINGS, ("The setup is refused, and the old one stays: %s.", error->message), (NULL));
}

/* ---- Caps ---- */

static GstCaps *transform_caps(GstBaseTransform *base, GstPadDirection direction, GstCaps *caps, GstCaps *filter)
{
    GstRokdaum *self = GST_ROKDAUM(base);
    struct passes passes;
    g_mutex_lock(&self->lock);
    gboolean is_known = self->wanted != NULL;
    if (is_known)
        passes = passes_of(self->wanted);
    g_mutex_unlock(&self->lock);
    /* Where nothing is known `start` refuses; until then anything might pass. */
    GstCaps *to = is_known ? passes_turn(&passes, direction, caps) : gst_caps_copy(caps);
    if (filter) {
        GstCaps *both = gst_caps_intersect_full(filter, to, GST_CAPS_INTERSECT_FIRST);
        gst_caps_unref(to);
        to = both;
    }
    return to;
}

static gboolean get_unit_size(GstBaseTransform *base, GstCaps *caps, gsize *size)
{
    struct format format;
    (void)base;
    if (!format_of(caps, &format))
        return FALSE;
    *size = frame_bytes(&format);
    return TRUE;
}

static gboolean transform_size(GstBaseTransform *base, GstPadDirection direction, GstCaps *caps, gsize size, GstCaps *other_caps, gsize *other_size)
{
    GstRokdaum *self = GST_ROKDAUM(base);
    struct format here, there;
    if (!format_of(caps, &here) || !format_of(other_caps, &there))
        return FALSE;
    g_mutex_lock(&self->lock);
    guint factor = self->made ? self->passes.factor : 1;
    g_mutex_unlock(&self->lock);
    gsize frames = size / frame_bytes(&here);
    if (factor > 1)
        frames = direction == GST_PAD_SINK ? frames / factor + 1 : frames * factor;
    *other_size = frames * frame_bytes(&there);
    return TRUE;
}

/* ---- Lines ---- */

/* What was heard so far is forgotten. The lock is held. */
static void begin_progress(GstRokdaum *self)
{
    for (guint line = 0; self->made && line < self->count; line++)
        for (guint chain = 0; chain < self->made->chains; chain++)
            self->progress[line][chain] = progress_begin(&self->made->chain[chain]);
    self->given = 0;
    self->since = GST_CLOCK_TIME_NONE;
}

/* Every instance forgets its past. The lock is held. */
static void reset_lines(GstRokdaum *self)
{
    for (guint at = 0; self->made && at < self->count; at++)
        line_reset(self->host, self->made, &self->lines[at]);
    begin_progress(self);
}

static void drop_lines(GstRokdaum *self)
{
    if (self->made)
        lines_drop(self->host, self->made, self->lines, self->count);
    g_clear_pointer(&self->made, g_free);
    self->count = 0;
}

/* Makes the lines of what is wanted, beside those that there are, and drops those. Where they can't be made the old ones stay. The lock
 * is held. */
static gboolean renew_lines(GstRokdaum *self, guint count, GError **error)
{
    struct line lines[MOST_LINES];
    if (!lines_make(self->host, self->wanted, lines, count, error))
        return FALSE;
    drop_lines(self);
    memcpy(self->lines, lines, sizeof lines);
    self->made = g_memdup2(self->wanted, sizeof *self->wanted);
    self->passes = passes_of(self->made);
    self->count = count;
    g_atomic_int_set(&self->renewed, FALSE);
    begin_progress(self);
    return TRUE;
}

/* How buffers are passed is GstBaseTransform's to know: as they are, in place, or into others. */
static void say_how_buffers_pass(GstBaseTransform *base, const struct passes *passes, const struct format *in, const struct format *out)
{
    gst_base_transform_set_passthrough(base, passes->only_listens);
    gst_base_transform_set_in_place(base, !passes->only_listens && passes->factor == 1 && frame_bytes(in) == frame_bytes(out));
}

static gboolean set_caps(GstBaseTransform *base, GstCaps *in, GstCaps *out)
{
    GstRokdaum *self = GST_ROKDAUM(base);
    struct format takes, gives;
    struct passes passes;
    GError *error = NULL;
    if (!format_of(in, &takes) || !format_of(out, &gives))
        return FALSE;
    g_mutex_lock(&self->lock);
    gboolean is_good = self->wanted != NULL;
    if (is_good)
        passes = passes_of(self->wanted);
    is_good = is_good && passes_fit(&passes, &takes, &gives); /* a setup may have been changed since the caps were asked for */
    if (is_good && (!self->made || self->count != passes_lines(&passes, &takes) || g_atomic_int_get(&self->renewed)))
        is_good = renew_lines(self, passes_lines(&passes, &takes), &error);
    else if (is_good && self->in.rate != takes.rate)
        reset_lines(self);
    if (is_good) {
        self->in = takes;
        self->out = gives;
    } /* else the old lines stay, with the caps that they fit: GstBaseTransform doesn't ask again where it returns to those */
    g_mutex_unlock(&self->lock);
    if (error)
        GST_ELEMENT_ERROR(self, RESOURCE, SETTINGS, ("The setup is refused: %s.", error->message), (NULL));
    g_clear_error(&error);
    if (is_good)
        say_how_buffers_pass(base, &passes, &takes, &gives);
    return is_good;
}

/* A setup that was changed meanwhile is put into force, where the caps stay as they are. */
static void before_transform(GstBaseTransform *base, GstBuffer *buffer)
{
    GstRokdaum *self = GST_ROKDAUM(base);
    GError *error = NULL;
    gboolean is_done = FALSE;
    (void)buffer;
    if (!g_atomic_int_get(&self->renewed))
        return;
    g_mutex_lock(&self->lock);
    if (self->made) {
        struct passes passes = passes_of(self->wanted);
        if (passes_fit(&passes, &self->in, &self->out)) {
            is_done = renew_lines(self, self->count, &error);
            if (!is_done) { /* the old lines go on */
                g_free(self->wanted);
                self->wanted = g_memdup2(self->made, sizeof *self->made);
                g_atomic_int_set(&self->renewed, FALSE);
            }
        }
    }
    struct passes passes = self->passes;
    g_mutex_unlock(&self->lock);
    if (is_done)
        say_how_buffers_pass(base, &passes, &self->in, &self->out);
    if (error) {
        warn_of_setup(self, error);
        g_error_free(error);
    }
}

/* ---- Samples ---- */

/* The words of one line of a block, which takes `ends` channels of the audio: where they stand, or `room` with a copy. */
static const gint16 *load(const struct format *format, const guint8 *in, guint line, guint ends, guint frames, gint16 *room)
{
    if (format->codes == CODES_NONE && format->channels == ends && (guintptr)in % sizeof(gint16) == 0 && G_BYTE_ORDER == G_LITTLE_ENDIAN)
        return (const gint16 *)(const void *)in;
    for (guint k = 0; k < frames; k++)
        for (guint end = 0; end < ends; end++) {
            gsize at = (gsize)k * format->channels + line * ends + end;
            room[k * ends + end] = format->codes != CODES_NONE ? in[at] : (gint16)GST_READ_UINT16_LE(in + 2 * at);
        }
    return room;
}

static void store(const struct format *format, guint8 *out, guint line, const gint16 *words, guint count)
{
    if (format->codes != CODES_NONE)
        for (guint k = 0; k < count; k++)
            out[k * format->channels + line] = (guint8)words[k];
    else if (format->channels == 1 && G_BYTE_ORDER == G_LITTLE_ENDIAN)
        memcpy(out, words, count * sizeof *words);
    else
        for (guint k = 0; k < count; k++)
            GST_WRITE_UINT16_LE(out + 2 * ((gsize)k * format->channels + line), (guint16)words[k]);
}

/* A buffer on its way through the lines. `out` is null where it is only heard. */
struct passage {
    const guint8 *in;
    gsize frames; /* of `in` */
    guint8 *out;
    gsize given; /* frames of `out` */
    GstClockTime at;
    GQueue posts; /* messages, for when no lock is held */
};

/* One line over one block, which begins at `in`; the listeners first, since the output may stand where the samples do. `*given` is what
 * channel 0 gave. */
static rokdaum_code serve_line(GstRokdaum *self, struct passage *passage, const guint8 *in, guint frames, const struct heard_block *block, guint *given)
{
    gint16 room[BLOCK], gave[BLOCK];
    guint32 count = 0;
    guint line = block->line, ends = self->passes.ends, words = frames * ends;
    const gint16 *samples = load(&self->in, in, line, ends, frames, room);
    for (guint at = self->made->chains; at-- > 0;) {
        const struct setup_chain *chain = &self->made->chain[at];
        struct progress *progress = &self->progress[line][at];
        rokdaum_code code = line_feed(self->host, &self->lines[line], at, samples, words, gave, BLOCK, &count);
        if (code != ROKDAUM_OK)
            return code;
        if (chain->is_listener && self->messages)
            listener_tell(progress, self->made, chain, block, gave, count, GST_OBJECT(self), &passage->posts);
        if (chain->is_listener || chain->factor > 1)
            progress_pass(progress, chain, words);
    }
    *given = passage->out ? count : frames;
    if (passage->out)
        store(&self->out, passage->out + passage->given * frame_bytes(&self->out), line, gave, count);
    return ROKDAUM_OK;
}

/* All lines over a buffer. The lock is held. */
static rokdaum_code serve(GstRokdaum *self, struct passage *passage)
{
    guint ends = self->passes.ends;
    struct heard_block block = {GST_CLOCK_TIME_NONE, self->in.rate * ends, 0, self->digit_frames};
    for (gsize done = 0; done < passage->frames;) {
        guint frames = (guint)MIN(passage->frames - done, BLOCK / ends), given = 0;
        if (GST_CLOCK_TIME_IS_VALID(passage->at))
            block.at = passage->at + gst_util_uint64_scale(done, GST_SECOND, self->in.rate);
        for (block.line = 0; block.line < self->count; block.line++) {
            rokdaum_code code = serve_line(self, passage, passage->in + done * frame_bytes(&self->in), frames, &block, &given);
            if (code != ROKDAUM_OK)
                return code;
        }
        passage->given += given;
        done += frames;
    }
    return ROKDAUM_OK;
}

/* Where samples are missing: the past may be forgotten, and outputs of another rate count their time anew. The lock is held. */
static void look_at_discont(GstRokdaum *self, GstBuffer *buffer)
{
    gboolean is_discont = GST_BUFFER_FLAG_IS_SET(buffer, GST_BUFFER_FLAG_DISCONT);
    if (!is_discont && GST_CLOCK_TIME_IS_VALID(self->since))
        return;
    if (is_discont && self->on_discont == DISCONT_RESET)
        reset_lines(self);
    /* A decimator gives its next output with the sample of some place: so many samples of it came before. */
    guint64 waits = self->passes.factor > 1 ? self->passes.factor - (progress_place(&self->progress[0][0], &self->made->chain[0], 0) + 1) / self->passes.ends : 0;
    GstClockTime before = gst_util_uint64_scale(waits, GST_SECOND, self->in.rate), at = GST_BUFFER_PTS(buffer);
    self->since = !GST_CLOCK_TIME_IS_VALID(at) ? at : at > before ? at - before : 0;
    self->given = 0;
}

/* The running time of a buffer, where somebody listens. */
static GstClockTime running_time(GstRokdaum *self, GstBuffer *buffer)
{
    const GstSegment *segment = &GST_BASE_TRANSFORM(self)->segment;
    gboolean is_told = self->messages && (self->passes.only_listens || self->made->chains > 1) && segment->format == GST_FORMAT_TIME;
    return is_told ? gst_segment_to_running_time(segment, GST_FORMAT_TIME, GST_BUFFER_PTS(buffer)) : GST_CLOCK_TIME_NONE;
}

static void post(GstRokdaum *self, GQueue *posts)
{
    GstMessage *one;
    while ((one = g_queue_pop_head(posts)))
        gst_element_post_message(GST_ELEMENT(self), one);
}

static GstFlowReturn flow_of(GstRokdaum *self, gboolean is_ready, rokdaum_code code)
{
    if (!is_ready)
        return GST_FLOW_NOT_NEGOTIATED;
    if (code == ROKDAUM_OK)
        return GST_FLOW_OK;
    GST_ELEMENT_ERROR(self, STREAM, FAILED, ("A feed is refused: %s.", rokdaum_error_text(code)), (NULL));
    return GST_FLOW_ERROR;
}

static GstFlowReturn transform_ip(GstBaseTransform *base, GstBuffer *buffer)
{
    GstRokdaum *self = GST_ROKDAUM(base);
    gboolean only_listens = gst_base_transform_is_passthrough(base);
    struct passage passage = {.posts = G_QUEUE_INIT};
    rokdaum_code code = ROKDAUM_OK;
    GstMapInfo map;
    if (!gst_buffer_map(buffer, &map, only_listens ? GST_MAP_READ : GST_MAP_READWRITE))
        return GST_FLOW_ERROR;
    g_mutex_lock(&self->lock);
    gboolean is_ready = self->made && self->passes.only_listens == only_listens;
    if (is_ready) {
        look_at_discont(self, buffer);
        passage.in = map.data;
        passage.out = only_listens ? NULL : map.data;
        passage.frames = map.size / frame_bytes(&self->in);
        passage.at = running_time(self, buffer);
        code = serve(self, &passage);
    }
    g_mutex_unlock(&self->lock);
    gst_buffer_unmap(buffer, &map);
    post(self, &passage.posts);
    return flow_of(self, is_ready, code);
}

/* Whether an output of so many octets has room for what an input gives at most. */
static gboolean has_room(const GstRokdaum *self, gsize from, gsize to)
{
    gsize frames = from / frame_bytes(&self->in), factor = self->passes.factor;
    return (frames / factor + (frames % factor != 0)) * frame_bytes(&self->out) <= to;
}

/* The size and the time of an output that isn't of the input's size. */
static void shape(GstBuffer *out, gsize given, guint64 before, GstClockTime since, const struct format *format)
{
    gst_buffer_set_size(out, (gssize)(given * frame_bytes(format)));
    if (GST_CLOCK_TIME_IS_VALID(since)) {
        GST_BUFFER_PTS(out) = since + gst_util_uint64_scale(before, GST_SECOND, format->rate);
        GST_BUFFER_DURATION(out) = since + gst_util_uint64_scale(before + given, GST_SECOND, format->rate) - GST_BUFFER_PTS(out);
    }
}

static GstFlowReturn transform(GstBaseTransform *base, GstBuffer *in, GstBuffer *out)
{
    GstRokdaum *self = GST_ROKDAUM(base);
    struct passage passage = {.posts = G_QUEUE_INIT};
    rokdaum_code code = ROKDAUM_OK;
    GstMapInfo from, to;
    if (!gst_buffer_map(in, &from, GST_MAP_READ))
        return GST_FLOW_ERROR;
    if (!gst_buffer_map(out, &to, GST_MAP_WRITE)) {
        gst_buffer_unmap(in, &from);
        return GST_FLOW_ERROR;
    }
    g_mutex_lock(&self->lock);
    gboolean is_ready = self->made && !self->passes.only_listens && has_room(self, from.size, to.size);
    if (is_ready) {
        look_at_discont(self, in);
        passage.in = from.data;
        passage.out = to.data;
        passage.frames = from.size / frame_bytes(&self->in);
        passage.at = running_time(self, in);
        code = serve(self, &passage);
    }
    guint64 before = self->given;
    GstClockTime since = self->since;
    struct format format = self->out;
    self->given += passage.given;
    g_mutex_unlock(&self->lock);
    gst_buffer_unmap(out, &to);
    gst_buffer_unmap(in, &from);
    post(self, &passage.posts);
    GstFlowReturn flow = flow_of(self, is_ready, code);
    if (flow != GST_FLOW_OK)
        return flow;
    if (!passage.given)
        return GST_BASE_TRANSFORM_FLOW_DROPPED;
    shape(out, passage.given, before, since, &format);
    return GST_FLOW_OK;
}

static gboolean sink_event(GstBaseTransform *base, GstEvent *event)
{
    GstRokdaum *self = GST_ROKDAUM(base);
    if (GST_EVENT_TYPE(event) == GST_EVENT_FLUSH_STOP) {
        g_mutex_lock(&self->lock);
        reset_lines(self);
        g_mutex_unlock(&self->lock);
    }
    return GST_BASE_TRANSFORM_CLASS(gst_rokdaum_parent_class)->sink_event(base, event);
}

/* A decimator keeps up to factor - 1 samples back; nothing else is kept. */
static gboolean query(GstBaseTransform *base, GstPadDirection direction, GstQuery *asked)
{
    GstRokdaum *self = GST_ROKDAUM(base);
    gboolean is_answered = GST_BASE_TRANSFORM_CLASS(gst_rokdaum_parent_class)->query(base, direction, asked);
    if (!is_answered || direction != GST_PAD_SRC || GST_QUERY_TYPE(asked) != GST_QUERY_LATENCY)
        return is_answered;
    gboolean live;
    GstClockTime least, most, own = 0;
    g_mutex_lock(&self->lock);
    if (self->made && self->in.rate)
        own = gst_util_uint64_scale_ceil(self->passes.factor - 1, GST_SECOND, self->in.rate);
    g_mutex_unlock(&self->lock);
    gst_query_parse_latency(asked, &live, &least, &most);
    gst_query_set_latency(asked, live, least + own, GST_CLOCK_TIME_IS_VALID(most) ? most + own : most);
    return TRUE;
}

/* ---- Start and stop ---- */

static gboolean start(GstBaseTransform *base)
{
    GstRokdaum *self = GST_ROKDAUM(base);
    GError *error = NULL;
    g_mutex_lock(&self->lock);
    if (self->wanted)
        self->host = host_take(self->host_name, &self->options, &error);
    else
        error = self->wrong ? g_error_copy(self->wrong) : g_error_new_literal(SETUP_ERROR, 0, "there is none");
    g_mutex_unlock(&self->lock);
    if (!error)
        return TRUE;
    GST_ELEMENT_ERROR(self, RESOURCE, SETTINGS, ("The setup is refused: %s.", error->message), (NULL));
    g_error_free(error);
    return FALSE;
}

static gboolean stop(GstBaseTransform *base)
{
    GstRokdaum *self = GST_ROKDAUM(base);
    g_mutex_lock(&self->lock);
    drop_lines(self);
    g_clear_pointer(&self->host, host_put);
    g_mutex_unlock(&self->lock);
    return TRUE;
}

/* ---- Commands ---- */

/* An instance forgot its past: where its channels stand. The lock is held. */
static void reset_progress(GstRokdaum *self, guint number)
{
    guint instance = (guint)setup_find(self->made, number);
    for (guint line = 0; line < self->count; line++)
        for (guint chain = 0; chain < self->made->chains; chain++)
            progress_reset(&self->progress[line][chain], &self->made->chain[chain], instance);
    self->since = GST_CLOCK_TIME_NONE; /* a decimator counts anew: the next buffer says from when */
}

static char *command(GstRokdaum *self, const char *line)
{
    struct command asked;
    GError *error = NULL;
    if (!command_parse(line ? line : "", &asked, &error)) {
        GST_WARNING_OBJECT(self, "%s", error->message);
        g_error_free(error);
        return g_strdup("no 2 syntax");
    }
    g_mutex_lock(&self->lock);
    char *said = self->made ? lines_serve(self->host, self->made, self->lines, self->count, &asked) : g_strdup("no 5 missing");
    if (asked.ask == ASK_RESET && g_str_has_prefix(said, "ok"))
        reset_progress(self, asked.number);
    g_mutex_unlock(&self->lock);
    return said;
}

static void control(GstRokdaum *self, const char *line)
{
    char *said = command(self, line);
    if (!g_str_has_prefix(said, "ok"))
        GST_ELEMENT_WARNING(self, RESOURCE, SETTINGS, ("%s: %s.", line ? line : "no command", said), (NULL));
    g_free(said);
}

/* ---- Properties ---- */

/* Takes a setup's text, or why there is none: `error` is the element's then. */
static void take_setup(GstRokdaum *self, const char *text, GError *error)
{
    struct setup *setup = text ? setup_parse(text, &error) : NULL;
    if (!text && !error)
        error = g_error_new_literal(SETUP_ERROR, 0, "there is none");
    g_mutex_lock(&self->lock);
    gboolean is_running = self->host != NULL;
    if (setup && self->made && (self->made->chain[0].takes != setup->chain[0].takes || self->made->chain[0].ends != setup->chain[0].ends)) {
        g_set_error_literal(&error, SETUP_ERROR, 0, "what the line takes, samples or codes of a law, of one end or two, can't be changed while it runs");
        g_clear_pointer(&setup, g_free);
    }
    if (setup || !is_running) {
        g_free(self->text);
        g_free(self->wanted);
        g_clear_error(&self->wrong);
        self->text = g_strdup(text);
        self->wanted = setup;
        g_atomic_int_set(&self->renewed, TRUE);
        self->wrong = error ? g_error_copy(error) : NULL;
    }
    g_mutex_unlock(&self->lock);
    if (is_running && error)
        warn_of_setup(self, error);
    else if (is_running && setup)
        gst_base_transform_reconfigure_src(GST_BASE_TRANSFORM(self));
    g_clear_error(&error);
}

static void take_location(GstRokdaum *self, const char *path)
{
    char *text = NULL;
    gsize length = 0;
    GError *error = NULL;
    if (path && g_file_get_contents(path, &text, &length, &error) && memchr(text, 0, length)) {
        g_set_error(&error, SETUP_ERROR, 0, "%s has a byte of 0, and isn't text", path);
        g_clear_pointer(&text, g_free);
    }
    take_setup(self, text, error);
    g_free(text);
    g_mutex_lock(&self->lock);
    g_free(self->location);
    self->location = g_strdup(path);
    g_mutex_unlock(&self->lock);
}

static guint32 *size_of(GstRokdaum *self, guint id)
{
    return id == PROP_DARAM ? &self->options.with.daram : id == PROP_SARAM ? &self->options.with.saram : &self->options.with.external;
}

/* The properties that are no more than numbers. The lock is held. */
static void set_number(GstRokdaum *self, guint id, const GValue *value)
{
    switch (id) {
    case PROP_DARAM:
    case PROP_SARAM:
    case PROP_EXTERNAL:
        *size_of(self, id) = g_value_get_uint(value);
        self->options.says_size[id - PROP_DARAM] = TRUE;
        break;
    case PROP_POISON:
        self->options.with.poisoned = g_value_get_int(value) >= 0;
        self->options.with.poison = (gint16)(guint16)MAX(g_value_get_int(value), 0);
        self->options.says_poison = TRUE;
        break;
    case PROP_MESSAGES: self->messages = g_value_get_boolean(value); break;
    case PROP_DIGIT_FRAMES: self->digit_frames = g_value_get_uint(value); break;
    case PROP_DISCONT: self->on_discont = (enum on_discont)g_value_get_enum(value); break;
    default: break;
    }
}

static void set_property(GObject *object, guint id, const GValue *value, GParamSpec *spec)
{
    GstRokdaum *self = GST_ROKDAUM(object);
    switch (id) {
    case PROP_SETUP: take_setup(self, g_value_get_string(value), NULL); return;
    case PROP_LOCATION: take_location(self, g_value_get_string(value)); return;
    case PROP_CONTROL: control(self, g_value_get_string(value)); return;
    default: break;
    }
    g_mutex_lock(&self->lock);
    if (id == PROP_HOST) {
        g_free(self->host_name);
        self->host_name = g_value_dup_string(value);
    } else if (id > PROP_HOST && id < PROP_CONTROL)
        set_number(self, id, value);
    else
        G_OBJECT_WARN_INVALID_PROPERTY_ID(object, id, spec);
    g_mutex_unlock(&self->lock);
}

static void get_property(GObject *object, guint id, GValue *value, GParamSpec *spec)
{
    GstRokdaum *self = GST_ROKDAUM(object);
    g_mutex_lock(&self->lock);
    switch (id) {
    case PROP_SETUP: g_value_set_string(value, self->text); break;
    case PROP_LOCATION: g_value_set_string(value, self->location); break;
    case PROP_HOST: g_value_set_string(value, self->host_name); break;
    case PROP_DARAM:
    case PROP_SARAM:
    case PROP_EXTERNAL: g_value_set_uint(value, *size_of(self, id)); break;
    case PROP_POISON: g_value_set_int(value, self->options.with.poisoned ? (guint16)self->options.with.poison : -1); break;
    case PROP_MESSAGES: g_value_set_boolean(value, self->messages); break;
    case PROP_DIGIT_FRAMES: g_value_set_uint(value, self->digit_frames); break;
    case PROP_DISCONT: g_value_set_enum(value, self->on_discont); break;
    default: G_OBJECT_WARN_INVALID_PROPERTY_ID(object, id, spec);
    }
    g_mutex_unlock(&self->lock);
}

static void finalize(GObject *object)
{
    GstRokdaum *self = GST_ROKDAUM(object);
    g_free(self->text);
    g_free(self->location);
    g_free(self->host_name);
    g_free(self->wanted);
    g_clear_error(&self->wrong);
    g_mutex_clear(&self->lock);
    G_OBJECT_CLASS(gst_rokdaum_parent_class)->finalize(object);
}

/* ---- The class ---- */

static GType on_discont_type(void)
{
    static gsize made;
    static const GEnumValue values[] = {{DISCONT_KEEP, "Past samples are kept", "keep"}, {DISCONT_RESET, "Past samples are forgotten", "reset"}, {0, NULL, NULL}};
    if (g_once_init_enter(&made)) {
        GType type = g_enum_register_static("GstRokdaumDiscont", values);
        gst_type_mark_as_plugin_api(type, 0);
        g_once_init_leave(&made, type);
    }
    return (GType)made;
}

/* While it plays, and before it is made ready. */
#define LIVE (G_PARAM_READWRITE | G_PARAM_STATIC_STRINGS | GST_PARAM_MUTABLE_PLAYING)
#define EARLY (G_PARAM_READWRITE | G_PARAM_STATIC_STRINGS | GST_PARAM_MUTABLE_READY)

static void install_of_lines(GObjectClass *object)
{
    g_object_class_install_property(object, PROP_SETUP, g_param_spec_string("setup", "Setup", "Lines of a script, cut by line feeds or semicolons: create I KIND G W .., chain C I .., control I set W ..", NULL, LIVE));
    g_object_class_install_property(object, PROP_LOCATION, g_param_spec_string("location", "Location", "A file with the setup, as dsp_design writes it", NULL, LIVE));
    g_object_class_install_property(object, PROP_CONTROL, g_param_spec_string("control", "Control", "A command for the lines: control I set W .., control I reset; what is refused is posted as a warning", NULL,
                                                                              G_PARAM_WRITABLE | G_PARAM_STATIC_STRINGS | GST_PARAM_MUTABLE_PLAYING));
    g_object_class_install_property(object, PROP_MESSAGES, g_param_spec_boolean("messages", "Messages", "Post what detectors give", TRUE, LIVE));
    g_object_class_install_property(object, PROP_DIGIT_FRAMES, g_param_spec_uint("digit-frames", "Digit frames", "How many frames in a row make a digit; 0: as goes with the detector's words, 3 for ROKDAUM_DTMF_B and else 2", 0, 16, 0, LIVE));
    g_object_class_install_property(object, PROP_DISCONT, g_param_spec_enum("discont", "Discontinuity", "What happens to past samples where some are missing", on_discont_type(), DISCONT_KEEP, LIVE));
}

static void install_of_hosts(GObjectClass *object)
{
    static const char *const spaces[] = {"daram", "saram", "external"};
    g_object_class_install_property(object, PROP_HOST, g_param_spec_string("host", "Host", "The name of a host that elements share; one of its own where it is empty", NULL, EARLY));
    for (guint at = 0; at < G_N_ELEMENTS(spaces); at++)
        g_object_class_install_property(object, PROP_DARAM + at, g_param_spec_uint(spaces[at], spaces[at], "The size of this memory space of the host in words of 16 bits, a multiple of 4", 0, ROKDAUM_SPACE_WORDS, ROKDAUM_SPACE_WORDS, EARLY));
    g_object_class_install_property(object, PROP_POISON, g_param_spec_int("poison", "Poison", "The word that fills new blocks and released scratch memory of the host, or -1", -1, 65535, -1, EARLY));
}

static void gst_rokdaum_class_init(GstRokdaumClass *klass)
{
    GObjectClass *object = G_OBJECT_CLASS(klass);
    GstElementClass *element = GST_ELEMENT_CLASS(klass);
    GstBaseTransformClass *base = GST_BASE_TRANSFORM_CLASS(klass);
    object->set_property = set_property;
    object->get_property = get_property;
    object->finalize = finalize;
    install_of_lines(object);
    install_of_hosts(object);
    /* Emit `command` with a line of a script; the answer is that of dsp_console. */
    signals[SIGNAL_COMMAND] = g_signal_new_class_handler("command", G_TYPE_FROM_CLASS(klass), G_SIGNAL_RUN_LAST | G_SIGNAL_ACTION, G_CALLBACK(command), NULL, NULL, NULL, G_TYPE_STRING, 1, G_TYPE_STRING);
    gst_element_class_set_static_metadata(element, "Rokdaum line", "Filter/Effect/Analyzer/Audio", "Fixed-point filters, companding, echo cancellers, meters and DTMF in a host with shared scratch memory", "The Rokdaum project");
    gst_element_class_add_static_pad_template(element, &sink_template);
    gst_element_class_add_static_pad_template(element, &src_template);
    base->transform_caps = transform_caps;
    base->get_unit_size = get_unit_size;
    base->transform_size = transform_size;
    base->set_caps = set_caps;
    base->before_transform = before_transform;
    base->transform = transform;
    base->transform_ip = transform_ip;
    base->sink_event = sink_event;
    base->query = query;
    base->start = start;
    base->stop = stop;
    GST_DEBUG_CATEGORY_INIT(rokdaum_debug, "rokdaum", 0, "Rokdaum line");
}

static void gst_rokdaum_init(GstRokdaum *self)
{
    g_mutex_init(&self->lock);
    self->options.with = (rokdaum_options)ROKDAUM_OPTIONS;
    self->messages = TRUE;
    begin_progress(self);
}

static gboolean plugin_init(GstPlugin *plugin)
{
    return GST_ELEMENT_REGISTER(rokdaum, plugin);
}

#define PACKAGE "rokdaum"
GST_PLUGIN_DEFINE(GST_VERSION_MAJOR, GST_VERSION_MINOR, rokdaum, "Fixed-point signal algorithms with shared scratch memory", plugin_init, ROKDAUM_VERSION, "Apache 2.0", "rokdaum", "Rokdaum")
