/* SPDX-License-Identifier: Apache-2.0
 *
 * Hosts, one for an element or one for all elements that name it, and the lines that live in them.
 *
 * Any thread may call: each function takes the lock of its host, so that the host gets one call at a time. */
#ifndef LINES_H
#define LINES_H

#include "setup.h"

typedef struct shared_host shared_host;

/* What an element asks of its host. Where it doesn't say so, a size or the poison is only what a host is opened with that isn't open. */
struct host_options {
    rokdaum_options with;
    gboolean says_size[3], says_poison; /* by the numbers of memory spaces */
};

/* The host of that name, opened by the first who asks for it, or one of its own where `name` is null or empty. It is closed when the last
 * of its users has put it back. Refused where it is open with another size or poison than is said. */
shared_host *host_take(const char *name, const struct host_options *options, GError **error);
void host_put(shared_host *host);

/* The instances and channels of one line in a host, in the order of the setup's tables. */
struct line {
    guint8 numbers[ROKDAUM_INSTANCES], channels[ROKDAUM_CHANNELS];
};

/* Makes `count` lines of a setup, all of them or none, and drops them. */
gboolean lines_make(shared_host *host, const struct setup *setup, struct line *lines, guint count, GError **error);
void lines_drop(shared_host *host, const struct setup *setup, const struct line *lines, guint count);

/* Lets every instance of a line forget its past. */
void line_reset(shared_host *host, const struct setup *setup, const struct line *line);

/* Passes up to 1,024 samples through chain `chain` of a line. */
rokdaum_code line_feed(shared_host *host, const struct line *line, guint chain, const gint16 *in, gsize count, gint16 *out, gsize room, guint32 *given);

/* Serves a command on `count` lines and answers as dsp_console does: `ok ..` or `no NUMBER NAME`. `get` is answered by the first line.
 * The answer is the caller's, and g_free frees it. */
char *lines_serve(shared_host *host, const struct setup *setup, const struct line *lines, guint count, const struct command *command);

#endif
