/* SPDX-License-Identifier: Apache-2.0
 *
 * Random setups, commands, caps and buffers for the element, to be run with sanitizers or valgrind.
 *
 *     fuzz SEED TURNS [threads]
 *
 * Nothing is compared: it prints how many setups were taken, refused late and refused at once, and how many buffers came out, and fails
 * where none was taken or none came out. With a third word a second thread changes setups and gives commands meanwhile. */
#include <gst/check/gstharness.h>
#include <gst/gst.h>
#include <stdio.h>
#include <stdlib.h>
#include <string.h>

static _Thread_local guint64 state;
static guint below(guint end)
{
    state = state * 6364136223846793005u + 1442695040888963407u;
    return (guint)(state >> 33) % end;
}

static const char *const kinds[] = {"fir", "decim", "biquad", "tone", "g711", "gain", "level", "dtmf", "echo", "adpcm", "signal", "activity", "gane"};
static void words(GString *to, guint kind)
{
    static const guint usual[] = {5, 4, 5, 3, 2, 1, 2, 7, 4, 2, 7, 6, 1};
    guint count = below(8) ? usual[kind] : below(80);
    if (kind == 7 && below(3)) {
        g_string_append(to, " 102 7 91 2920 7336 5827 22938");
        return;
    }
    if (kind == 9 && below(5)) {
        g_string_append_printf(to, " %d %d", 8 * (2 + (int)below(4)), (int)below(2));
        return;
    }
    for (guint k = 0; k < count; k++)
        g_string_append_printf(to, " %d", (kind == 8 && !k) || (kind == 11 && k < 4) ? 1 + (int)below(15) : kind == 4 ? (int)below(2) : (kind == 1 && !k) || kind == 6 || (kind == 3 && k) ? (int)below(16) + (k == 0 || kind == 3) : below(300) ? (int)below(65536) - 32768 : (int)below(1000000));
}

/* Eight decimators, by more than there are samples in a second. */
static char *slow(void)
{
    GString *to = g_string_new(0);
    for (guint k = 0; k < 8; k++)
        g_string_append_printf(to, "create %u decim 0 %u 32767\n", k, 1 + below(16));
    g_string_append(to, "chain 0 0 1 2 3 4 5 6 7");
    return g_string_free(to, FALSE);
}

static char *setup(void)
{
    if (!below(40))
        return slow();
    GString *to = g_string_new(0);
    guint instances = 1 + below(6), chains = 1 + (below(4) == 0), next = 0;
    for (guint k = 0; k < instances; k++) {
        static const guint filters[] = {0, 1, 2, 4, 5, 10};
        guint kind = below(200) == 0 ? G_N_ELEMENTS(kinds) - 1 : !k && !below(4) ? 8 : k + 1 < instances && below(10) ? filters[below(6)] : below(G_N_ELEMENTS(kinds) - 1);
        g_string_append_printf(to, "create %u %s %u", k, kinds[kind], below(100) ? below(3) : below(12));
        words(to, kind);
        g_string_append(to, below(2) ? "\n" : "; ");
        if (!below(6))
            g_string_append_printf(to, "control %u set %d\n", k, (int)below(30000));
        if (!below(100))
            g_string_append(to, "# no\nfeed 0 3\n");
    }
    for (guint c = 0; c < chains; c++) {
        g_string_append_printf(to, "chain %u", c);
        for (guint k = 0; k < 1 + below(3) && next < instances; k++)
            g_string_append_printf(to, " %u", below(30) ? next++ : below(70));
        g_string_append(to, "\n");
    }
    return g_string_free(to, FALSE);
}

static const char *const commands[] = {"control 0 get", "control 1 get", "control 0 reset", "control 0 set 5", "control 0 set 1 2 3 4 5", "control 1 reset", "control 2 reset", "map daram", "map saram", "map external", "step daram", "compact external", "release 0", "stat 1",
                                       "", "control", "control 99 get", "map", "map moon", "feed 0 160", "stat 9", "control 0 set 70000"};
static const char *const caps[] = {"audio/x-raw,format=S16LE,layout=interleaved,rate=8000,channels=1", "audio/x-raw,format=S16LE,layout=interleaved,rate=48000,channels=1", "audio/x-raw,format=S16LE,layout=interleaved,rate=16000,channels=2",
                                   "audio/x-raw,format=S16LE,layout=interleaved,rate=720720,channels=16", "audio/x-mulaw,rate=8000,channels=1", "audio/x-alaw,rate=8000,channels=1", "audio/x-mulaw,rate=8000,channels=3"};

static void drain(GstHarness *h, guint *came)
{
    GstBuffer *out;
    while ((out = gst_harness_try_pull(h))) {
        (*came)++;
        gst_buffer_unref(out);
    }
}

static gint ended;
static gpointer meddle(gpointer element)
{
    state = (guint64)(guintptr)element;
    while (!g_atomic_int_get(&ended)) {
        char *text = setup(), *said = 0;
        if (below(2))
            g_object_set(element, "setup", text, NULL);
        g_signal_emit_by_name(element, "command", commands[below(G_N_ELEMENTS(commands))], &said);
        g_free(said);
        g_free(text);
    }
    return 0;
}

int main(int argc, char **argv)
{
    guint taken = 0, late = 0, refused = 0, came = 0;
    gst_init(&argc, &argv);
    state = argc > 1 ? g_ascii_strtoull(argv[1], 0, 10) : 1;
    for (guint turn = 0, turns = argc > 2 ? (guint)atoi(argv[2]) : 100; turn < turns; turn++) {
        GstElement *element = gst_element_factory_make("rokdaum", 0);
        gst_object_ref_sink(element);
        char *text = setup();
        g_object_set(element, "setup", text, "host", below(2) ? "shared" : "", "daram", below(3) ? 65536 : 4 * below(1200), "discont", below(2), "poison", (int)below(3) - 1, "digit-frames", below(4), "messages", below(4) != 0, NULL);
        g_free(text);
        if (gst_element_set_state(element, GST_STATE_READY) == GST_STATE_CHANGE_FAILURE || gst_element_set_state(element, GST_STATE_PAUSED) == GST_STATE_CHANGE_FAILURE) {
            refused++;
            gst_element_set_state(element, GST_STATE_NULL);
            gst_object_unref(element);
            continue;
        }
        GstHarness *h = gst_harness_new_with_element(element, "sink", "src");
        gst_object_unref(element);
        gst_harness_set_src_caps_str(h, caps[below(G_N_ELEMENTS(caps))]);
        gboolean good = FALSE;
        g_atomic_int_set(&ended, 0);
        GThread *thread = argc > 3 ? g_thread_new("meddle", meddle, h->element) : 0;
        for (guint k = 0; k < 12; k++) {
            gsize size = below(4) ? below(400) : below(9000);
            GstBuffer *buffer = gst_buffer_new_allocate(0, size, 0);
            gst_buffer_memset(buffer, 0, (guint8)below(256), size);
            if (below(2))
                GST_BUFFER_PTS(buffer) = k * 20 * GST_MSECOND;
            if (!below(4))
                GST_BUFFER_FLAG_SET(buffer, GST_BUFFER_FLAG_DISCONT);
            good |= gst_harness_push(h, buffer) == GST_FLOW_OK;
            drain(h, &came);
            char *said = 0;
            g_signal_emit_by_name(h->element, "command", commands[below(G_N_ELEMENTS(commands))], &said);
            g_free(said);
            if (!below(5)) {
                text = setup();
                g_object_set(h->element, "setup", text, NULL);
                g_free(text);
            }
            if (!below(12))
                gst_harness_set_src_caps_str(h, caps[below(G_N_ELEMENTS(caps))]);
            if (!below(20)) {
                gst_element_set_state(h->element, GST_STATE_READY);
                gst_element_set_state(h->element, GST_STATE_PLAYING);
            }
        }
        g_atomic_int_set(&ended, 1);
        if (thread)
            g_thread_join(thread);
        taken += good;
        late += !good;
        gst_harness_teardown(h);
    }
    printf("taken %u, refused late %u, refused %u, buffers out %u\n", taken, late, refused, came);
    return taken == 0 || came == 0;
}
