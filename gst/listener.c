/* SPDX-License-Identifier: Apache-2.0 */
#include "listener.h"

#include <math.h>

struct progress progress_begin(const struct setup_chain *chain)
{
    return (struct progress){{0}, chain->digits};
}

void progress_reset(struct progress *progress, const struct setup_chain *chain, guint instance)
{
    for (guint at = 0; at < chain->count; at++)
        if (chain->of[at] == instance) {
            progress->phase[at] = 0;
            if (at + 1 == chain->count)
                progress->digits = chain->digits;
        }
}

guint64 progress_place(const struct progress *progress, const struct setup_chain *chain, guint word)
{
    guint64 place = word;
    for (guint at = chain->count; at-- > 0;)
        place = chain->period[at] - 1 - progress->phase[at] + place * chain->period[at];
    return place;
}

void progress_pass(struct progress *progress, const struct setup_chain *chain, guint samples)
{
    guint words = samples;
    for (guint at = 0; at < chain->count; at++) {
        guint all = progress->phase[at] + words;
        progress->phase[at] = all % chain->period[at];
        words = all / chain->period[at];
    }
}

/* ---- Messages ---- */

/* The running time behind a sample of a block. */
static GstClockTime time_behind(const struct heard_block *block, guint64 place)
{
    return GST_CLOCK_TIME_IS_VALID(block->at) ? block->at + gst_util_uint64_scale(place + 1, GST_SECOND, block->rate) : GST_CLOCK_TIME_NONE;
}

/* The numbers of telephone events in RFC 4733, which GStreamer's dtmfdetect has too. */
static gint event_of(char key)
{
    return key >= '0' && key <= '9' ? key - '0' : key == '*' ? 10 : key == '#' ? 11 : key - 'A' + 12;
}

static void append_double(GValue *to, double value)
{
    GValue one = G_VALUE_INIT;
    g_value_init(&one, G_TYPE_DOUBLE);
    g_value_set_double(&one, value);
    gst_value_array_append_and_take_value(to, &one);
}

static void append_int(GValue *to, gint value)
{
    GValue one = G_VALUE_INIT;
    g_value_init(&one, G_TYPE_INT);
    g_value_set_int(&one, value);
    gst_value_array_append_and_take_value(to, &one);
}

static const struct setup_instance *detector_of(const struct setup *setup, const struct setup_chain *chain)
{
    return &setup->instance[chain->of[chain->count - 1]];
}

/* The level of a frame in dB of full scale, by the energy that a meter gave. */
static double decibels(const struct setup_instance *meter, gint16 energy)
{
    double mean = energy * 32768.0 / meter->words[0] * pow(4, meter->words[1]);
    return mean > 0 ? 10 * log10(mean / (32768.0 * 32768.0)) : -G_MAXDOUBLE;
}

static GstMessage *frames(const struct setup *setup, const struct setup_chain *chain, const struct heard_block *block, const gint16 *words, guint count, GstClockTime end, GstObject *source)
{
    GValue all = G_VALUE_INIT, levels = G_VALUE_INIT;
    GstClockTime lasts = gst_util_uint64_scale((guint64)chain->period[chain->count - 1] * chain->factor * chain->ends, GST_SECOND, block->rate);
    GstClockTime begin = !GST_CLOCK_TIME_IS_VALID(end) ? end : end > lasts ? end - lasts : 0;
    gst_value_array_init(&all, count);
    for (guint k = 0; k < count; k++)
        append_int(&all, words[k]);
    GstStructure *told = gst_structure_new("rokdaum-frames", "kind", G_TYPE_STRING, setup_kind_name(chain->kind), "line", G_TYPE_UINT, block->line, "channel", G_TYPE_UINT, chain->number,
                                           "running-time", G_TYPE_UINT64, begin, "frame-duration", G_TYPE_UINT64, lasts, NULL);
    gst_structure_take_value(told, "words", &all);
    if (chain->kind == ROKDAUM_LEVEL) {
        gst_value_array_init(&levels, count);
        for (guint k = 0; k < count; k++)
            append_double(&levels, decibels(detector_of(setup, chain), words[k]));
        gst_structure_take_value(told, "rms", &levels);
    }
    return gst_message_new_element(source, told);
}

static GstMessage *digit(char key, const struct setup_chain *chain, const struct heard_block *block, GstClockTime at, GstObject *source)
{
    const char text[2] = {key, 0};
    return gst_message_new_element(source, gst_structure_new("dtmf-event", "type", G_TYPE_INT, 1, "number", G_TYPE_INT, event_of(key), "method", G_TYPE_INT, 2, "digit", G_TYPE_STRING, text,
                                                             "line", G_TYPE_UINT, block->line, "channel", G_TYPE_UINT, chain->number, "running-time", G_TYPE_UINT64, at, NULL));
}

void listener_tell(struct progress *progress, const struct setup *setup, const struct setup_chain *chain, const struct heard_block *block, const gint16 *words, guint count, GstObject *source, GQueue *posts)
{
    if (chain->kind != ROKDAUM_DTMF) {
        if (count)
            g_queue_push_tail(posts, frames(setup, chain, block, words, count, time_behind(block, progress_place(progress, chain, 0)), source));
        return;
    }
    progress->digits.frames_on = block->digit_frames ? block->digit_frames : chain->digits.frames_on;
    for (guint k = 0; k < count; k++) {
        char key;
        size_t given = 0;
        rokdaum_dialled(&progress->digits, &words[k], 1, &key, 1, &given);
        if (given)
            g_queue_push_tail(posts, digit(key, chain, block, time_behind(block, progress_place(progress, chain, k)), source));
    }
}
