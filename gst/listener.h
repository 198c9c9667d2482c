/* SPDX-License-Identifier: Apache-2.0
 *
 * Where the words that a channel gives stand in the stream that it is fed, and the messages that listeners post. */
#ifndef LISTENER_H
#define LISTENER_H

#include "setup.h"

#include <gst/gst.h>

/* How far a channel of one line is: of each member, how many words it got since it last gave one. */
struct progress {
    guint phase[ROKDAUM_MEMBERS];
    rokdaum_digits digits; /* of a dtmf */
};

/* A channel whose members have got nothing yet, and one whose member `instance`, a place in the setup's table, forgot its past. */
struct progress progress_begin(const struct setup_chain *chain);
void progress_reset(struct progress *progress, const struct setup_chain *chain, guint instance);

/* With which sample of a block, counted from 0, a channel gives the word number `word` of that block. */
guint64 progress_place(const struct progress *progress, const struct setup_chain *chain, guint word);

/* Goes on behind a block of `samples`. */
void progress_pass(struct progress *progress, const struct setup_chain *chain, guint samples);

/* A block of samples that a listener heard: where it stands in running time, GST_CLOCK_TIME_NONE where that isn't known. */
struct heard_block {
    GstClockTime at;
    guint rate;         /* words a second: of each end that a line takes, one a sample */
    guint line;         /* the line, from 0 */
    guint digit_frames; /* how many frames in a row make a digit; 0 as the detector's words have it */
};

/* Appends to `posts` the messages of what a listener gave for a block, for which `progress` isn't passed yet: `dtmf-event` for each digit
 * that begins, or one `rokdaum-frames` with the words of all frames. */
void listener_tell(struct progress *progress, const struct setup *setup, const struct setup_chain *chain, const struct heard_block *block, const gint16 *words, guint count, GstObject *source, GQueue *posts);

#endif
