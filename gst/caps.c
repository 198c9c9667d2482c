/* SPDX-License-Identifier: Apache-2.0 */
#include "caps.h"

static const char *media_of(enum setup_codes codes)
{
    return codes == CODES_MU ? "audio/x-mulaw" : codes == CODES_A ? "audio/x-alaw" : "audio/x-raw";
}

gboolean format_of(const GstCaps *caps, struct format *format)
{
    const GstStructure *shape = gst_caps_get_structure(caps, 0);
    gint channels = 0, rate = 0;
    format->codes = gst_structure_has_name(shape, "audio/x-mulaw") ? CODES_MU : gst_structure_has_name(shape, "audio/x-alaw") ? CODES_A : CODES_NONE;
    gboolean has_both = gst_structure_get_int(shape, "channels", &channels) && gst_structure_get_int(shape, "rate", &rate);
    format->channels = (guint)channels;
    format->rate = (guint)rate;
    return has_both && channels >= 1 && channels <= MOST_LINES && rate >= 1;
}

gsize frame_bytes(const struct format *format)
{
    return format->channels * (format->codes == CODES_NONE ? 2u : 1u);
}

struct passes passes_of(const struct setup *setup)
{
    const struct setup_chain *first = &setup->chain[0];
    if (first->is_listener)
        return (struct passes){first->takes, first->takes, 1, first->ends, TRUE};
    return (struct passes){first->takes, first->gives, first->factor, first->ends, FALSE};
}

guint passes_lines(const struct passes *passes, const struct format *in)
{
    return in->channels / passes->ends;
}

gboolean passes_fit(const struct passes *passes, const struct format *in, const struct format *out)
{
    gboolean are_codes = in->codes == passes->takes && out->codes == passes->gives;
    gboolean are_lines = in->channels % passes->ends == 0 && out->channels == (passes->only_listens ? in->channels : passes_lines(passes, in));
    return are_codes && are_lines && in->rate % passes->factor == 0 && in->rate / passes->factor == out->rate;
}

/* ---- Rates, and numbers of channels ---- */

/* A number divided by a factor, where `down`, or else times it. Whether there is one. */
static gboolean scale_int(const GValue *from, GValue *to, gint factor, gboolean down)
{
    gint number = g_value_get_int(from);
    if (down ? number % factor != 0 : number > G_MAXINT / factor)
        return FALSE;
    g_value_init(to, G_TYPE_INT);
    g_value_set_int(to, down ? number / factor : number * factor);
    return TRUE;
}

static gboolean scale_range(const GValue *from, GValue *to, gint factor, gboolean down)
{
    gint low = gst_value_get_int_range_min(from), high = gst_value_get_int_range_max(from), most = G_MAXINT / factor;
    low = down ? (low - 1) / factor + 1 : MIN(low, most) * factor;
    high = down ? high / factor : MIN(high, most) * factor;
    if (low > high)
        return FALSE;
    g_value_init(to, low == high ? G_TYPE_INT : GST_TYPE_INT_RANGE);
    if (low == high)
        g_value_set_int(to, low);
    else
        gst_value_set_int_range(to, low, high);
    return TRUE;
}

static gboolean scale(const GValue *from, GValue *to, gint factor, gboolean down)
{
    if (G_VALUE_HOLDS_INT(from))
        return scale_int(from, to, factor, down);
    if (GST_VALUE_HOLDS_INT_RANGE(from))
        return scale_range(from, to, factor, down);
    if (!GST_VALUE_HOLDS_LIST(from))
        return FALSE;
    gst_value_list_init(to, gst_value_list_get_size(from));
    for (guint at = 0; at < gst_value_list_get_size(from); at++) {
        GValue one = G_VALUE_INIT;
        if (scale(gst_value_list_get_value(from, at), &one, factor, down))
            gst_value_list_append_and_take_value(to, &one);
    }
    if (gst_value_list_get_size(to))
        return TRUE;
    g_value_unset(to);
    return FALSE;
}

/* ---- The other pad ---- */

/* Caps of more than two channels say where they are: of codes nothing is known, so these are nowhere. */
static void become_raw(GstStructure *to)
{
    gint channels = 0;
    gst_structure_set(to, "format", G_TYPE_STRING, "S16LE", "layout", G_TYPE_STRING, "interleaved", NULL);
    if (gst_structure_get_int(to, "channels", &channels) && channels > 2)
        gst_structure_set(to, "channel-mask", GST_TYPE_BITMASK, G_GUINT64_CONSTANT(0), NULL);
}

/* Puts the other pad's number of channels into `to`. Whether there is one. */
static gboolean turn_channels(const struct passes *passes, const GstStructure *from, gboolean down, GstStructure *to)
{
    GValue channels = G_VALUE_INIT;
    if (passes->ends == 1 || passes->only_listens)
        return TRUE;
    if (!scale(gst_structure_get_value(from, "channels"), &channels, (gint)passes->ends, down))
        return FALSE;
    gst_structure_take_value(to, "channels", &channels);
    gst_structure_remove_field(to, "channel-mask");
    if (down && gst_structure_has_name(to, media_of(CODES_NONE)))
        become_raw(to);
    return TRUE;
}

/* The other pad's structure, or null where this one can't be. */
static GstStructure *turn(const struct passes *passes, const GstStructure *from, gboolean down)
{
    enum setup_codes here = down ? passes->takes : passes->gives, there = down ? passes->gives : passes->takes;
    GValue rate = G_VALUE_INIT;
    if (!gst_structure_has_name(from, media_of(here)) || !scale(gst_structure_get_value(from, "rate"), &rate, (gint)passes->factor, down))
        return NULL;
    GstStructure *to = gst_structure_copy(from);
    gst_structure_take_value(to, "rate", &rate);
    if (!turn_channels(passes, from, down, to)) {
        gst_structure_free(to);
        return NULL;
    }
    if (here != there) {
        gst_structure_set_name(to, media_of(there));
        gst_structure_remove_fields(to, "format", "layout", "channel-mask", NULL);
        if (there == CODES_NONE)
            become_raw(to);
    }
    return to;
}

GstCaps *passes_turn(const struct passes *passes, GstPadDirection direction, const GstCaps *caps)
{
    GstCaps *to = gst_caps_new_empty();
    for (guint at = 0; at < gst_caps_get_size(caps); at++) {
        GstStructure *one = turn(passes, gst_caps_get_structure(caps, at), direction == GST_PAD_SINK);
        if (one)
            to = gst_caps_merge_structure(to, one);
    }
    return to;
}
