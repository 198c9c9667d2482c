/* SPDX-License-Identifier: Apache-2.0
 *
 * The setup of a line: lines of a script, `create`, `chain` and `control I set`, read into a table.
 *
 * A setup is of one line. Its channel 0 is the audio path. Each other channel is a listener: it hears what channel 0 hears, and ends in a
 * detector (tone, level, dtmf, activity). A channel 0 that ends in a detector is a listener too; the audio then passes by unchanged. */
#ifndef SETUP_H
#define SETUP_H

#include <glib.h>
#include <rokdaum.h>

enum setup_codes { CODES_NONE, CODES_A, CODES_MU };

struct setup_instance {
    guint8 number, group;
    rokdaum_kind kind;
    guint count;
    gint16 words[ROKDAUM_PARAMETER_WORDS];
};

/* A `control I set W ..`; `of` is a place in the table of instances. */
struct setup_control {
    guint of, count;
    gint16 words[ROKDAUM_PARAMETER_WORDS];
};

/* A channel's members, as places in the table of instances. */
struct setup_chain {
    guint8 number;
    guint count, of[ROKDAUM_MEMBERS];
    guint period[ROKDAUM_MEMBERS]; /* a member gives one word for so many: the factor of a decimator, the frame of a detector, the pair of an echo, or 1 */
    guint factor;                  /* what the decimators divide the rate by */
    gboolean is_listener;          /* it ends in a detector, whose kind is `kind` */
    rokdaum_kind kind;
    rokdaum_digits digits;         /* the rule that goes with the words of a dtmf */
    enum setup_codes takes, gives;
    guint ends;                    /* the words that it takes of each frame: 2 where it cancels echo, the far end's and the near end's, or 1 */
};

struct setup {
    guint instances, controls, chains; /* chain[0] is of channel 0 */
    struct setup_instance instance[ROKDAUM_INSTANCES];
    struct setup_control control[ROKDAUM_INSTANCES];
    struct setup_chain chain[ROKDAUM_CHANNELS];
};

/* A line of a script for what is there already. */
enum ask { ASK_SET, ASK_RESET, ASK_GET, ASK_STAT, ASK_MAP, ASK_STEP, ASK_COMPACT, ASK_RELEASE };
struct command {
    enum ask ask;
    guint number; /* an instance of the setup, a group or a space */
    guint count;
    gint16 words[ROKDAUM_PARAMETER_WORDS];
};

#define SETUP_ERROR (setup_error_quark())
GQuark setup_error_quark(void);

/* The name of a kind, and of a memory space, as scripts have them. */
const char *setup_kind_name(rokdaum_kind kind);
const char *setup_space_name(guint space);

/* Reads a setup, which g_free frees. Lines end at a line feed or a semicolon, and a `#` begins a comment. Where it is wrong, null is
 * returned, and the error names the line, its text and the reason. */
struct setup *setup_parse(const char *text, GError **error);

/* The place of an instance in the table, by its number in the setup, or -1. */
gint setup_find(const struct setup *setup, guint number);

/* Reads one command. */
gboolean command_parse(const char *text, struct command *command, GError **error);

#endif
