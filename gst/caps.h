/* SPDX-License-Identifier: Apache-2.0
 *
 * What stands on the pads: S16LE or codes of G.711, and what a setup makes of it. */
#ifndef CAPS_H
#define CAPS_H

#include "setup.h"

#include <gst/gst.h>

/* A line for each channel of the audio. */
enum { MOST_LINES = ROKDAUM_CHANNELS };

#define CAPS                                                                                                   \
    "audio/x-raw, format=(string)S16LE, layout=(string)interleaved, rate=(int)[1,MAX], channels=(int)[1,16]; " \
    "audio/x-mulaw, rate=(int)[1,MAX], channels=(int)[1,16]; audio/x-alaw, rate=(int)[1,MAX], channels=(int)[1,16]"

/* What the samples on a pad are. */
struct format {
    enum setup_codes codes;
    guint channels, rate;
};

/* Whether caps are of a format that an element can have. */
gboolean format_of(const GstCaps *caps, struct format *format);

/* The octets of a sample of each channel. */
gsize frame_bytes(const struct format *format);

/* What a setup does to the audio that passes it. One that only listens lets it pass as it is. A line takes `ends` channels of the audio and
 * gives one of them, and all of them where it only listens. */
struct passes {
    enum setup_codes takes, gives;
    guint factor, ends;
    gboolean only_listens;
};
struct passes passes_of(const struct setup *setup);

/* The lines that audio of this format is. */
guint passes_lines(const struct passes *passes, const struct format *in);

/* Whether whole lines go from one format to the other. */
gboolean passes_fit(const struct passes *passes, const struct format *in, const struct format *out);

/* The caps of the other pad, where `direction` is that of the pad that has these. */
GstCaps *passes_turn(const struct passes *passes, GstPadDirection direction, const GstCaps *caps);

#endif
