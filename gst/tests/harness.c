/* SPDX-License-Identifier: Apache-2.0
 * The element in a harness: what it gives beside what the library gives, caps, messages, what is changed while it runs, what is refused. */
#include <glib/gstdio.h>
#include <gst/check/gstcheck.h>
#include <gst/check/gstharness.h>
#include <rokdaum.h>
#include <string.h>

#define RAW(rate, channels) "audio/x-raw,format=S16LE,layout=interleaved,rate=" #rate ",channels=" #channels
static const char band[] = "create 0 biquad 0 11969 0 -11969 -2999 -7553\ncreate 1 biquad 1 12335 24670 12335 23864 10482\n"
                           "create 2 biquad 2 14459 -28918 14459 -28604 13055\nchain 0 0 1 2\n";
static const char average[] = "create 0 fir 0 16384 16384; chain 0 0";

/* A harness plays its element at once, so the element has its properties before. */
static GstHarness *playing(const char *launch, const char *setup)
{
    GstElement *element = gst_parse_launch(launch, NULL);
    gst_object_ref_sink(element);
    g_object_set(element, "setup", setup, NULL);
    GstHarness *h = gst_harness_new_with_element(element, "sink", "src");
    gst_object_unref(element);
    return h;
}

static GstHarness *made(const char *setup, const char *in, const char *out)
{
    GstHarness *h = playing("rokdaum", setup);
    gst_harness_set_caps_str(h, in, out);
    return h;
}

/* A harness has no bus. */
static GstBus *with_bus(GstHarness *h)
{
    GstBus *bus = gst_bus_new();
    gst_element_set_bus(h->element, bus);
    return bus;
}

static void without_bus(GstHarness *h, GstBus *bus)
{
    gst_element_set_bus(h->element, NULL);
    gst_object_unref(bus);
}

static GstBuffer *buffer_of(const void *bytes, gsize size)
{
    return gst_buffer_new_memdup(bytes, size);
}

/* Pushes, and appends what comes out. */
static void push(GstHarness *h, const void *bytes, gsize size, GByteArray *to)
{
    fail_unless_equals_int(gst_harness_push(h, buffer_of(bytes, size)), GST_FLOW_OK);
    GstBuffer *out;
    while ((out = gst_harness_try_pull(h))) {
        GstMapInfo map;
        fail_unless(gst_buffer_map(out, &map, GST_MAP_READ));
        g_byte_array_append(to, map.data, (guint)map.size);
        gst_buffer_unmap(out, &map);
        gst_buffer_unref(out);
    }
}

static void noise(gint16 *to, gsize count, guint32 seed)
{
    for (gsize k = 0; k < count; k++) {
        seed = seed * 1664525u + 1013904223u;
        to[k] = (gint16)(seed >> 16);
    }
}

/* One instance, and what a chain of them gives by the library alone. */
struct member {
    rokdaum_kind kind;
    gsize count;
    gint16 words[8];
};

static gsize by_members(const struct member *chain, guint8 length, const gint16 *in, gsize count, gint16 *out)
{
    guint8 members[ROKDAUM_MEMBERS];
    rokdaum_options options = ROKDAUM_OPTIONS;
    rokdaum host = ROKDAUM_CLOSED;
    size_t given = 0;
    fail_if(rokdaum_open(&host, &options));
    for (guint8 k = 0; k < length; k++) {
        members[k] = k;
        fail_if(rokdaum_create(&host, k, chain[k].kind, k, chain[k].words, chain[k].count, 0));
    }
    fail_if(rokdaum_chain(&host, 0, members, length));
    fail_if(rokdaum_feed_all(&host, 0, in, count, out, count, &given));
    fail_if(rokdaum_close(&host));
    return given;
}

/* The three sections of `band` by the library alone. */
static gsize by_library(const gint16 *in, gsize count, gint16 *out)
{
    static const struct member sections[3] = {
        {ROKDAUM_BIQUAD, 5, {11969, 0, -11969, -2999, -7553}}, {ROKDAUM_BIQUAD, 5, {12335, 24670, 12335, 23864, 10482}}, {ROKDAUM_BIQUAD, 5, {14459, -28918, 14459, -28604, 13055}}};
    return by_members(sections, 3, in, count, out);
}

GST_START_TEST(cuts_give_what_the_library_gives)
{
    enum { COUNT = 20000 };
    static gint16 in[COUNT], wanted[COUNT];
    GstHarness *h = made(band, RAW(8000, 1), RAW(8000, 1));
    GByteArray *heard = g_byte_array_new();
    noise(in, COUNT, 1);
    by_library(in, COUNT, wanted);
    for (gsize done = 0, cut = 1; done < COUNT; cut = cut * 7 % 3001 + 1) {
        gsize some = MIN(cut, COUNT - done);
        push(h, in + done, 2 * some, heard);
        done += some;
    }
    fail_unless_equals_int(heard->len, sizeof wanted);
    fail_unless(memcmp(heard->data, wanted, sizeof wanted) == 0);
    g_byte_array_unref(heard);
    gst_harness_teardown(h);
}
GST_END_TEST

GST_START_TEST(sixteen_channels)
{
    enum { FRAMES = 3000, LINES = 16 };
    static gint16 in[FRAMES * LINES], one[FRAMES], wanted[FRAMES];
    GstHarness *h = made("create 0 biquad 0 11969 0 -11969 -2999 -7553\ncreate 1 biquad 0 12335 24670 12335 23864 10482\n"
                         "create 2 biquad 0 14459 -28918 14459 -28604 13055\nchain 0 0 1 2\n",
                         RAW(8000, 16), RAW(8000, 16));
    GByteArray *heard = g_byte_array_new();
    noise(in, FRAMES * LINES, 2);
    push(h, in, sizeof in, heard);
    fail_unless_equals_int(heard->len, sizeof in);
    for (int line = 0; line < LINES; line++) {
        for (int k = 0; k < FRAMES; k++)
            one[k] = in[k * LINES + line];
        by_library(one, FRAMES, wanted);
        for (int k = 0; k < FRAMES; k++)
            fail_unless_equals_int(((gint16 *)(void *)heard->data)[k * LINES + line], wanted[k]);
    }
    char *said = NULL;
    g_signal_emit_by_name(h->element, "command", "map daram", &said);
    fail_unless_equals_string(said, "ok g0@0+4");
    g_free(said);
    g_byte_array_unref(heard);
    gst_harness_teardown(h);
}
GST_END_TEST

GST_START_TEST(a_decimator_has_another_rate_and_times)
{
    gint16 in[161];
    guint64 given = 0;
    GstHarness *h = made("create 0 decim 0 3 10922 10922 10922; chain 0 0", RAW(24000, 1), RAW(8000, 1));
    noise(in, 161, 3);
    for (int k = 0; k < 30; k++) {
        GstBuffer *buffer = buffer_of(in, sizeof in);
        GST_BUFFER_PTS(buffer) = gst_util_uint64_scale((guint64)k * 161, GST_SECOND, 24000);
        GST_BUFFER_DURATION(buffer) = gst_util_uint64_scale(161, GST_SECOND, 24000);
        fail_unless_equals_int(gst_harness_push(h, buffer), GST_FLOW_OK);
        GstBuffer *out = gst_harness_pull(h);
        fail_unless_equals_uint64(GST_BUFFER_PTS(out), gst_util_uint64_scale(given, GST_SECOND, 8000));
        given += gst_buffer_get_size(out) / 2;
        fail_unless_equals_uint64(GST_BUFFER_PTS(out) + GST_BUFFER_DURATION(out), gst_util_uint64_scale(given, GST_SECOND, 8000));
        gst_buffer_unref(out);
    }
    fail_unless_equals_uint64(given, 30 * 161 / 3);
    fail_unless_equals_uint64(gst_harness_query_latency(h), gst_util_uint64_scale_ceil(2, GST_SECOND, 24000));
    gst_harness_teardown(h);
    /* buffers of one sample: most give nothing */
    h = made("create 0 decim 0 16 32767; chain 0 0", RAW(16000, 1), RAW(1000, 1));
    for (int k = 0; k < 160; k++)
        fail_unless_equals_int(gst_harness_push(h, buffer_of(in + k, 2)), GST_FLOW_OK);
    fail_unless_equals_int(gst_harness_buffers_received(h), 10);
    gst_harness_teardown(h);
}
GST_END_TEST

static GstCaps *other_side(const char *setup, const char *caps, GstPadDirection from)
{
    GstHarness *h = playing("rokdaum", setup);
    GstPad *pad = gst_element_get_static_pad(h->element, from == GST_PAD_SINK ? "src" : "sink");
    GstCaps *asked = gst_caps_from_string(caps);
    /* what stands behind the other pad shapes what this one can be */
    if (from == GST_PAD_SINK)
        gst_harness_set_src_caps(h, gst_caps_ref(asked));
    else
        gst_harness_set_sink_caps(h, gst_caps_ref(asked));
    GstCaps *found = from == GST_PAD_SINK ? gst_pad_get_current_caps(pad) : gst_pad_query_caps(pad, NULL);
    gst_caps_unref(asked);
    gst_object_unref(pad);
    gst_harness_teardown(h);
    return found;
}

static void must_meet(GstCaps *found, const char *wanted)
{
    GstCaps *caps = gst_caps_from_string(wanted);
    fail_unless(found && gst_caps_can_intersect(found, caps), "found %" GST_PTR_FORMAT, found);
    gst_caps_unref(caps);
    gst_caps_unref(found);
}

GST_START_TEST(caps)
{
    must_meet(other_side("create 0 decim 0 2 16384 16384; chain 0 0", RAW(16000, 2), GST_PAD_SINK), RAW(8000, 2));
    must_meet(other_side("create 0 decim 0 2 16384 16384; chain 0 0", RAW(8000, 1), GST_PAD_SRC), RAW(16000, 1));
    must_meet(other_side("create 0 g711 0 1 1; chain 0 0", "audio/x-mulaw,rate=8000,channels=1", GST_PAD_SINK), RAW(8000, 1));
    must_meet(other_side("create 0 g711 0 1 1; chain 0 0", "audio/x-mulaw,rate=8000,channels=3", GST_PAD_SINK), RAW(8000, 3) ",channel-mask=(bitmask)0x0");
    must_meet(other_side("create 0 g711 0 0 0; chain 0 0", "audio/x-alaw,rate=8000,channels=1", GST_PAD_SRC), RAW(8000, 1));
    must_meet(other_side("create 0 g711 0 1 1; create 1 g711 0 0 0; chain 0 0 1", "audio/x-mulaw,rate=8000,channels=1", GST_PAD_SINK), "audio/x-alaw,rate=8000,channels=1");
    /* 8001 isn't a multiple of 2, and A-law isn't mu-law */
    GstHarness *h = playing("rokdaum", "create 0 decim 0 2 16384 16384; chain 0 0");
    gst_harness_set_src_caps_str(h, RAW(8001, 1));
    fail_unless_equals_int(gst_harness_push(h, gst_buffer_new_allocate(NULL, 20, NULL)), GST_FLOW_NOT_NEGOTIATED);
    gst_harness_teardown(h);
    h = playing("rokdaum", "create 0 g711 0 1 1; chain 0 0");
    gst_harness_set_src_caps_str(h, "audio/x-alaw,rate=8000,channels=1");
    fail_unless_equals_int(gst_harness_push(h, gst_buffer_new_allocate(NULL, 20, NULL)), GST_FLOW_NOT_NEGOTIATED);
    gst_harness_teardown(h);
}
GST_END_TEST

GST_START_TEST(codes_in_and_out)
{
    guint8 codes[512], wanted[512];
    gint16 samples[512];
    for (int k = 0; k < 512; k++)
        codes[k] = (guint8)k;
    GByteArray *heard = g_byte_array_new();
    GstHarness *h = made("create 0 g711 0 1 1; create 1 g711 0 0 0; chain 0 0 1", "audio/x-mulaw,rate=8000,channels=1", "audio/x-alaw,rate=8000,channels=1");
    push(h, codes, 512, heard);
    rokdaum_g711_decode(ROKDAUM_MU_LAW, codes, samples, 512);
    rokdaum_g711_encode(ROKDAUM_A_LAW, samples, wanted, 512);
    fail_unless_equals_int(heard->len, 512);
    fail_unless(memcmp(heard->data, wanted, 512) == 0);
    gst_harness_teardown(h);
    g_byte_array_set_size(heard, 0);
    h = made("create 0 g711 0 1 1; chain 0 0", "audio/x-mulaw,rate=8000,channels=2", RAW(8000, 2));
    push(h, codes, 512, heard);
    fail_unless_equals_int(heard->len, 1024);
    fail_unless(memcmp(heard->data, samples, 1024) == 0);
    gst_harness_teardown(h);
    g_byte_array_unref(heard);
}
GST_END_TEST

#define CANCELLER "create 0 echo 0 16 8192 16384 240; "

/* A far end, and a near end that is a fourth of what the far end was two frames before: two of so many channels, from `to` on. */
static void line_with_echo(gint16 *to, gsize frames, guint channels, guint32 seed)
{
    gint16 far[4000];
    noise(far, frames, seed);
    for (gsize k = 0; k < frames; k++) {
        to[k * channels] = far[k];
        to[k * channels + 1] = k < 2 ? 0 : far[k - 2] / 4;
    }
}

GST_START_TEST(two_ends_of_a_line)
{
    enum { FRAMES = 4000, LINES = 3 };
    static gint16 in[FRAMES * 2 * LINES], one[FRAMES * 2], wanted[FRAMES];
    static const struct member canceller = {ROKDAUM_ECHO, 4, {16, 8192, 16384, 240}};
    GByteArray *heard = g_byte_array_new();
    GstHarness *h = made(CANCELLER "chain 0 0", RAW(8000, 2), RAW(8000, 1));
    line_with_echo(one, FRAMES, 2, 5);
    fail_unless_equals_int(by_members(&canceller, 1, one, 2 * FRAMES, wanted), FRAMES);
    for (gsize done = 0, cut = 1; done < FRAMES; cut = cut * 7 % 1501 + 1) {
        gsize some = MIN(cut, FRAMES - done);
        push(h, one + 2 * done, 4 * some, heard);
        done += some;
    }
    fail_unless_equals_int(heard->len, sizeof wanted);
    fail_unless(memcmp(heard->data, wanted, sizeof wanted) == 0);
    fail_unless(ABS(wanted[FRAMES - 1]) < 100 && ABS(one[2 * FRAMES - 1]) > 100, "%d of %d", wanted[FRAMES - 1], one[2 * FRAMES - 1]);
    gst_harness_teardown(h);
    /* six channels are three lines */
    g_byte_array_set_size(heard, 0);
    h = made(CANCELLER "chain 0 0", RAW(8000, 6) ",channel-mask=(bitmask)0x0", RAW(8000, 3) ",channel-mask=(bitmask)0x0");
    for (guint line = 0; line < LINES; line++)
        line_with_echo(in + 2 * line, FRAMES, 2 * LINES, 5 + line);
    push(h, in, sizeof in, heard);
    fail_unless_equals_int(heard->len, FRAMES * LINES * 2);
    for (guint line = 0; line < LINES; line++) {
        line_with_echo(one, FRAMES, 2, 5 + line);
        by_members(&canceller, 1, one, 2 * FRAMES, wanted);
        for (guint k = 0; k < FRAMES; k++)
            fail_unless_equals_int(((gint16 *)(void *)heard->data)[k * LINES + line], wanted[k]);
    }
    gst_harness_teardown(h);
    /* an odd channel is no line */
    h = playing("rokdaum", CANCELLER "chain 0 0");
    gst_harness_set_src_caps_str(h, RAW(8000, 3) ",channel-mask=(bitmask)0x0");
    fail_unless_equals_int(gst_harness_push(h, gst_buffer_new_allocate(NULL, 60, NULL)), GST_FLOW_NOT_NEGOTIATED);
    gst_harness_teardown(h);
    must_meet(other_side(CANCELLER "chain 0 0", RAW(8000, 2), GST_PAD_SINK), RAW(8000, 1));
    must_meet(other_side(CANCELLER "chain 0 0", RAW(8000, 1), GST_PAD_SRC), RAW(8000, 2));
    must_meet(other_side(CANCELLER "create 1 decim 0 2 16384 16384; chain 0 0 1", RAW(16000, 2), GST_PAD_SINK), RAW(8000, 1));
    must_meet(other_side("create 1 g711 0 1 1; " CANCELLER "chain 0 1 0", "audio/x-mulaw,rate=8000,channels=2", GST_PAD_SINK), RAW(8000, 1));
    g_byte_array_unref(heard);
}
GST_END_TEST

GST_START_TEST(codes_of_two_ends)
{
    static guint8 codes[2000], wanted[1000];
    static gint16 words[2000], clear[1000];
    static const struct member chain[3] = {{ROKDAUM_G711, 2, {1, 1}}, {ROKDAUM_ECHO, 4, {16, 8192, 16384, 240}}, {ROKDAUM_G711, 2, {0, 0}}};
    GByteArray *heard = g_byte_array_new();
    GstHarness *h = made("create 1 g711 0 1 1; create 2 g711 0 0 0; " CANCELLER "chain 0 1 0 2", "audio/x-mulaw,rate=8000,channels=2", "audio/x-alaw,rate=8000,channels=1");
    noise(words, 2000, 9);
    for (int k = 0; k < 2000; k++)
        words[k] = codes[k] = (guint8)(words[k] >> 8);
    fail_unless_equals_int(by_members(chain, 3, words, 2000, clear), 1000);
    for (int k = 0; k < 1000; k++)
        wanted[k] = (guint8)clear[k];
    push(h, codes, 2000, heard);
    fail_unless_equals_int(heard->len, 1000);
    fail_unless(memcmp(heard->data, wanted, 1000) == 0);
    g_byte_array_unref(heard);
    gst_harness_teardown(h);
}
GST_END_TEST

GST_START_TEST(coders_and_generators)
{
    enum { COUNT = 5000 };
    static gint16 in[COUNT], wanted[COUNT];
    static const struct {
        const char *setup;
        struct member chain[2];
        guint8 length;
    } lines[] = {
        {"create 0 adpcm 0 32 0; create 1 adpcm 1 32 1; chain 0 0 1", {{ROKDAUM_ADPCM, 2, {32, 0}}, {ROKDAUM_ADPCM, 2, {32, 1}}}, 2},
        {"create 0 signal 0 26956 9315 16325 14206 800 400 2; chain 0 0", {{ROKDAUM_SIGNAL, 7, {26956, 9315, 16325, 14206, 800, 400, 2}}}, 1},
    };
    noise(in, COUNT, 11);
    for (guint at = 0; at < G_N_ELEMENTS(lines); at++) {
        GByteArray *heard = g_byte_array_new();
        GstHarness *h = made(lines[at].setup, RAW(8000, 1), RAW(8000, 1));
        fail_unless_equals_int(by_members(lines[at].chain, lines[at].length, in, COUNT, wanted), COUNT);
        push(h, in, 2 * 1234, heard);
        push(h, in + 1234, sizeof in - 2 * 1234, heard);
        fail_unless_equals_int(heard->len, sizeof wanted);
        fail_unless(memcmp(heard->data, wanted, sizeof wanted) == 0);
        g_byte_array_unref(heard);
        gst_harness_teardown(h);
    }
}
GST_END_TEST

/* Digits of 80 ms, 80 ms apart. */
static gsize dial(const char *digits, gint16 *to)
{
    static const double low[4] = {697, 770, 852, 941}, high[4] = {1209, 1336, 1477, 1633};
    gsize count = 0;
    for (; *digits; digits++) {
        int at = (int)(strchr(ROKDAUM_DTMF_KEYS, *digits) - ROKDAUM_DTMF_KEYS);
        for (int k = 0; k < 1280; k++)
            to[count++] = k < 640 ? (gint16)(6000 * sin(2 * G_PI * low[at / 4] * k / 8000) + 6000 * sin(2 * G_PI * high[at % 4] * k / 8000)) : 0;
    }
    return count;
}

GST_START_TEST(digits_and_levels_are_posted)
{
    static gint16 in[16 * 1280];
    GString *digits = g_string_new("");
    gsize count = dial("123A456B789C*0#D", in);
    GstHarness *h = playing("rokdaum", "create 0 dtmf 0 102 7 91 2920 7336 5827 22938\ncreate 1 level 0 80 0\nchain 0 0\nchain 1 1");
    GstBus *bus = with_bus(h);
    gst_harness_set_caps_str(h, RAW(8000, 1), RAW(8000, 1));
    guint frames = 0, numbers = 0;
    GstClockTime last = 0;
    for (gsize done = 0; done < count; done += 160) {
        GstBuffer *buffer = buffer_of(in + done, 320);
        GST_BUFFER_PTS(buffer) = gst_util_uint64_scale(done, GST_SECOND, 8000);
        gpointer memory = gst_buffer_peek_memory(buffer, 0);
        fail_unless_equals_int(gst_harness_push(h, buffer), GST_FLOW_OK);
        GstBuffer *out = gst_harness_pull(h);
        fail_unless(gst_buffer_peek_memory(out, 0) == memory, "the audio passes by unchanged and uncopied");
        gst_buffer_unref(out);
    }
    GstMessage *message;
    while ((message = gst_bus_pop_filtered(bus, GST_MESSAGE_ELEMENT))) {
        const GstStructure *said = gst_message_get_structure(message);
        if (gst_structure_has_name(said, "dtmf-event")) {
            guint64 at;
            gint number;
            g_string_append(digits, gst_structure_get_string(said, "digit"));
            fail_unless(gst_structure_get_uint64(said, "running-time", &at) && at > last && gst_structure_get_int(said, "number", &number));
            /* a digit begins every 160 ms, and two frames of 12.75 ms later it is told, or three */
            fail_unless(at % (160 * GST_MSECOND) <= 3 * 12750 * GST_USECOND + 10, "%" GST_TIME_FORMAT, GST_TIME_ARGS(at));
            last = at;
            numbers = numbers * 3 + (guint)number;
        } else {
            const GValue *rms = gst_structure_get_value(said, "rms");
            guint64 at;
            fail_unless(gst_structure_has_name(said, "rokdaum-frames") && rms && gst_structure_get_uint64(said, "running-time", &at));
            fail_unless_equals_uint64(at, gst_util_uint64_scale((guint64)frames * 80, GST_SECOND, 8000));
            for (guint k = 0; k < gst_value_array_get_size(rms); k++, frames++) {
                double level = g_value_get_double(gst_value_array_get_value(rms, k));
                /* 6000 each: two tones of -17.8 dB of full scale */
                fail_unless(frames % 16 < 8 ? level > -20 && level < -11 : level < -1000, "frame %u: %f", frames, level);
            }
        }
        gst_message_unref(message);
    }
    fail_unless_equals_string(digits->str, "123A456B789C*0#D");
    fail_unless_equals_int(frames, count / 80);
    g_string_free(digits, TRUE);
    without_bus(h, bus);
    gst_harness_teardown(h);
}
GST_END_TEST

static void must_say(GstElement *element, const char *line, const char *wanted)
{
    char *said = NULL;
    g_signal_emit_by_name(element, "command", line, &said);
    fail_unless_equals_string(said, wanted);
    g_free(said);
}

GST_START_TEST(what_is_changed_while_it_runs)
{
    static const gint16 in[4] = {1000, 1000, 1000, 1000};
    GByteArray *heard = g_byte_array_new();
    GstHarness *h = made(average, RAW(8000, 1), RAW(8000, 1));
    GstBus *bus = with_bus(h);
    const gint16 **at = (const gint16 **)(void *)&heard->data;
    push(h, in, 8, heard);
    fail_unless((*at)[0] == 500 && (*at)[1] == 1000);
    must_say(h->element, "control 0 set 8192 8192", "ok");
    must_say(h->element, "control 0 get", "ok 8192 8192");
    must_say(h->element, "control 0 set 1", "no 9 command");
    must_say(h->element, "control 7 get", "no 5 missing");
    must_say(h->element, "map daram", "ok g0@0+1028");
    must_say(h->element, "stat 0", "ok 0 1");
    must_say(h->element, "stat 8", "no 2 syntax");
    must_say(h->element, "delete 0", "no 2 syntax");
    must_say(h->element, "compact daram", "ok 0");
    g_byte_array_set_size(heard, 0);
    push(h, in, 8, heard);
    fail_unless((*at)[0] == 500 && (*at)[3] == 500);
    g_object_set(h->element, "control", "control 0 set 16384 0", NULL);
    g_byte_array_set_size(heard, 0);
    push(h, in, 2, heard);
    fail_unless((*at)[0] == 500);
    /* another setup, and one that is refused: the line goes on as it was, and a warning says so */
    g_object_set(h->element, "setup", "create 5 gain 0 8192; chain 0 5", NULL);
    g_byte_array_set_size(heard, 0);
    push(h, in, 2, heard);
    fail_unless((*at)[0] == 2000);
    fail_unless(gst_bus_pop(bus) == NULL);
    static const char *const refused[] = {"create 5 fir 0; chain 0 5", "create 5 gain 0 8192", "create 5 gain 0 8192; chain 0 6", "create 5 gane 0 1; chain 0 5", "create 0 g711 0 1 1; chain 0 0"};
    for (guint k = 0; k < G_N_ELEMENTS(refused); k++) {
        g_object_set(h->element, "setup", refused[k], NULL);
        g_byte_array_set_size(heard, 0);
        push(h, in, 2, heard);
        fail_unless((*at)[0] == 2000);
        GstMessage *message = gst_bus_pop_filtered(bus, GST_MESSAGE_WARNING);
        fail_unless(message != NULL, "%s", refused[k]);
        gst_message_unref(message);
    }
    g_object_set(h->element, "control", "control 5 set 1 2", NULL);
    GstMessage *message = gst_bus_pop_filtered(bus, GST_MESSAGE_WARNING);
    fail_unless(message != NULL);
    gst_message_unref(message);
    without_bus(h, bus);
    g_byte_array_unref(heard);
    gst_harness_teardown(h);
}
GST_END_TEST

GST_START_TEST(a_filter_becomes_a_listener_and_back)
{
    static const gint16 in[4] = {1000, 1000, 1000, 1000};
    GByteArray *heard = g_byte_array_new();
    GstHarness *h = made("create 0 gain 0 8192; chain 0 0", RAW(8000, 1), RAW(8000, 1));
    push(h, in, 8, heard);
    g_object_set(h->element, "setup", "create 0 level 0 4 0; chain 0 0", NULL);
    push(h, in, 8, heard);
    g_object_set(h->element, "setup", "create 0 gain 0 2048; chain 0 0", NULL);
    push(h, in, 8, heard);
    static const gint16 wanted[12] = {2000, 2000, 2000, 2000, 1000, 1000, 1000, 1000, 500, 500, 500, 500};
    fail_unless_equals_int(heard->len, sizeof wanted);
    fail_unless(memcmp(heard->data, wanted, sizeof wanted) == 0);
    g_byte_array_unref(heard);
    gst_harness_teardown(h);
}
GST_END_TEST

GST_START_TEST(errors_are_posted)
{
    static const char *const wrong[] = {NULL, "", "create 0 fir 0 99999; chain 0 0", "create 0 fir 0 1; chain 1 0", "frobnicate", "feed 0 160", "create 0 level 0 4 0; create 1 gain 0 1; chain 0 0 1"};
    for (guint k = 0; k < G_N_ELEMENTS(wrong); k++) {
        GstElement *element = gst_element_factory_make("rokdaum", NULL);
        GstBus *bus = gst_bus_new();
        gst_object_ref_sink(element);
        gst_element_set_bus(element, bus);
        g_object_set(element, "setup", wrong[k], NULL);
        fail_unless_equals_int(gst_element_set_state(element, GST_STATE_PAUSED), GST_STATE_CHANGE_FAILURE);
        GstMessage *message = gst_bus_pop_filtered(bus, GST_MESSAGE_ERROR);
        GError *error = NULL;
        gst_message_parse_error(message, &error, NULL);
        fail_unless(g_error_matches(error, GST_RESOURCE_ERROR, GST_RESOURCE_ERROR_SETTINGS));
        fail_unless(g_str_has_prefix(error->message, "The setup is refused: "), "%s", error->message);
        g_error_free(error);
        gst_message_unref(message);
        gst_element_set_state(element, GST_STATE_NULL);
        gst_element_set_bus(element, NULL);
        gst_object_unref(bus);
        gst_object_unref(element);
    }
    /* what only the host can refuse: parameters, and room */
    static const char *const late[] = {"create 0 fir 0; chain 0 0", "create 0 tone 0 1; chain 0 0", "create 0 fir 0 1; create 1 fir 1 1; chain 0 0 1"};
    for (guint k = 0; k < G_N_ELEMENTS(late); k++) {
        GstHarness *h = playing("rokdaum daram=1028", late[k]);
        GstBus *bus = with_bus(h);
        gst_harness_set_src_caps_str(h, RAW(8000, 1));
        fail_unless_equals_int(gst_harness_push(h, gst_buffer_new_allocate(NULL, 20, NULL)), GST_FLOW_NOT_NEGOTIATED);
        GstMessage *message = gst_bus_pop_filtered(bus, GST_MESSAGE_ERROR);
        fail_unless(message != NULL, "%s", late[k]);
        gst_message_unref(message);
        without_bus(h, bus);
        gst_harness_teardown(h);
    }
}
GST_END_TEST

GST_START_TEST(elements_share_a_host)
{
    enum { LINES = 16 };
    static const gint16 in[2] = {2, 4};
    GstHarness *h[LINES + 1];
    GByteArray *heard = g_byte_array_new();
    for (int k = 0; k <= LINES; k++) {
        h[k] = playing("rokdaum host=all", "create 0 fir 3 16384 16384; create 1 gain 3 4096; chain 0 0 1");
    }
    for (int k = 0; k < LINES; k++) {
        gst_harness_set_caps_str(h[k], RAW(8000, 1), RAW(8000, 1));
        push(h[k], in, 4, heard);
    }
    for (int k = 0; k < LINES; k++)
        push(h[k], in, 4, heard);
    for (int k = 0; k < LINES; k++) {
        static const gint16 first[2] = {1, 3}, second[2] = {3, 3};
        fail_unless(memcmp(heard->data + 4 * k, first, 4) == 0);
        fail_unless(memcmp(heard->data + 4 * (LINES + k), second, 4) == 0);
    }
    must_say(h[5]->element, "map daram", "ok g3@0+1028");
    /* the seventeenth finds no channel */
    GstBus *bus = with_bus(h[LINES]);
    gst_harness_set_src_caps_str(h[LINES], RAW(8000, 1));
    fail_unless_equals_int(gst_harness_push(h[LINES], gst_buffer_new_allocate(NULL, 4, NULL)), GST_FLOW_NOT_NEGOTIATED);
    GstMessage *message = gst_bus_pop_filtered(bus, GST_MESSAGE_ERROR);
    fail_unless(message != NULL);
    gst_message_unref(message);
    without_bus(h[LINES], bus);
    /* one that stops gives its place to it */
    gst_element_set_state(h[3]->element, GST_STATE_NULL);
    gst_element_set_state(h[LINES]->element, GST_STATE_NULL);
    gst_element_set_state(h[LINES]->element, GST_STATE_PLAYING);
    g_byte_array_set_size(heard, 0);
    gst_harness_set_caps_str(h[LINES], RAW(8000, 1), RAW(8000, 1));
    push(h[LINES], in, 4, heard);
    fail_unless_equals_int(heard->len, 4);
    for (int k = 0; k <= LINES; k++)
        gst_harness_teardown(h[k]);
    g_byte_array_unref(heard);
}
GST_END_TEST

static gpointer feeder(gpointer h)
{
    static const gint16 in[160] = {2, 4};
    GByteArray *heard = g_byte_array_new();
    for (int turn = 0; turn < 200; turn++)
        push(h, in, sizeof in, heard);
    gint16 *words = (gint16 *)(void *)heard->data;
    for (int turn = 0; turn < 200; turn++)
        fail_unless(words[160 * turn] == 1 && words[160 * turn + 1] == 3 && words[160 * turn + 2] == 2 && words[160 * turn + 3] == 0);
    g_byte_array_unref(heard);
    return NULL;
}

GST_START_TEST(threads_share_a_host)
{
    GstHarness *h[8];
    GThread *threads[8];
    for (int k = 0; k < 8; k++) {
        h[k] = playing("rokdaum host=threads poison=12345", average);
        gst_harness_set_caps_str(h[k], RAW(8000, 1), RAW(8000, 1));
    }
    for (int k = 0; k < 8; k++)
        threads[k] = g_thread_new("feeder", feeder, h[k]);
    for (int turn = 0; turn < 50; turn++) {
        char *said = NULL;
        g_signal_emit_by_name(h[turn % 8]->element, "command", turn % 2 ? "step daram" : "release 0", &said);
        g_free(said);
        g_usleep(100);
    }
    for (int k = 0; k < 8; k++)
        g_thread_join(threads[k]);
    for (int k = 0; k < 8; k++)
        gst_harness_teardown(h[k]);
}
GST_END_TEST

GST_START_TEST(flushes_and_discontinuities)
{
    static const gint16 in[2] = {1000, 1000};
    GByteArray *heard = g_byte_array_new();
    GstHarness *h = made(average, RAW(8000, 1), RAW(8000, 1));
    GstSegment segment;
    push(h, in, 4, heard);
    gst_harness_push_event(h, gst_event_new_flush_start());
    gst_harness_push_event(h, gst_event_new_flush_stop(TRUE));
    gst_segment_init(&segment, GST_FORMAT_TIME);
    gst_harness_push_event(h, gst_event_new_segment(&segment));
    push(h, in, 4, heard);
    static const gint16 wanted[4] = {500, 1000, 500, 1000};
    fail_unless(memcmp(heard->data, wanted, 8) == 0);
    for (int reset = 0; reset < 2; reset++) {
        GstBuffer *buffer = buffer_of(in, 4);
        gint16 sample;
        g_object_set(h->element, "discont", reset, NULL);
        GST_BUFFER_FLAG_SET(buffer, GST_BUFFER_FLAG_DISCONT);
        fail_unless_equals_int(gst_harness_push(h, buffer), GST_FLOW_OK);
        buffer = gst_harness_pull(h);
        gst_buffer_extract(buffer, 0, &sample, 2);
        fail_unless_equals_int(sample, reset ? 500 : 1000);
        gst_buffer_unref(buffer);
    }
    /* other caps on the way: two channels, then another rate, each from the beginning */
    static const gint16 two[4] = {1000, 2000, 1000, 2000};
    g_byte_array_set_size(heard, 0);
    gst_harness_set_caps_str(h, RAW(8000, 2), RAW(8000, 2));
    push(h, two, 8, heard);
    gst_harness_set_caps_str(h, RAW(16000, 2), RAW(16000, 2));
    push(h, two, 8, heard);
    static const gint16 both[8] = {500, 1000, 1000, 2000, 500, 1000, 1000, 2000};
    fail_unless_equals_int(heard->len, sizeof both);
    fail_unless(memcmp(heard->data, both, sizeof both) == 0);
    /* a read-only buffer isn't written to */
    GstMemory *memory = gst_memory_new_wrapped(GST_MEMORY_FLAG_READONLY, (gpointer)two, 8, 0, 8, NULL, NULL);
    GstBuffer *buffer = gst_buffer_new();
    gst_buffer_append_memory(buffer, memory);
    fail_unless_equals_int(gst_harness_push(h, buffer), GST_FLOW_OK);
    gst_buffer_unref(gst_harness_pull(h));
    fail_unless(two[0] == 1000 && two[3] == 2000);
    /* half a frame at the end, and an empty buffer, are passed over */
    fail_unless_equals_int(gst_harness_push(h, buffer_of(two, 7)), GST_FLOW_OK);
    fail_unless_equals_int(gst_harness_push(h, gst_buffer_new()), GST_FLOW_OK);
    g_byte_array_unref(heard);
    gst_harness_teardown(h);
}
GST_END_TEST

GST_START_TEST(what_the_fuzz_found)
{
    static const gint16 in[4] = {1000, 1000, 1000, 1000};
    GByteArray *heard = g_byte_array_new();
    /* a wrong setup between start and the first caps: the right one stays */
    GstHarness *h = playing("rokdaum", average);
    g_object_set(h->element, "setup", "create", NULL);
    gst_harness_set_caps_str(h, RAW(8000, 1), RAW(8000, 1));
    push(h, in, 4, heard);
    fail_unless(heard->len == 4 && ((gint16 *)(void *)heard->data)[0] == 500);
    gst_harness_teardown(h);
    /* caps that are refused while lines of other caps live: nothing passes, and once the old caps are back the old lines go on */
    h = playing("rokdaum daram=1028 saram=12 external=8", average);
    gst_harness_set_src_caps_str(h, RAW(8000, 1));
    push(h, in, 4, heard);
    gst_harness_set_src_caps_str(h, RAW(8000, 16));
    fail_unless_equals_int(gst_harness_push(h, gst_buffer_new_memdup(in, 2)), GST_FLOW_NOT_NEGOTIATED);
    gst_harness_set_src_caps_str(h, RAW(8000, 1));
    g_byte_array_set_size(heard, 0);
    push(h, in, 4, heard);
    fail_unless(heard->len == 4 && ((gint16 *)(void *)heard->data)[0] == 1000);
    g_byte_array_unref(heard);
    gst_harness_teardown(h);
}
GST_END_TEST

/* Pushes a block of zeros that begins with sample `first`, 8,000 a second. */
static void push_zeros(GstHarness *h, guint64 first, guint count, gboolean is_discont)
{
    GstBuffer *buffer = gst_buffer_new_allocate(NULL, 2 * count, NULL);
    gst_buffer_memset(buffer, 0, 0, 2 * count);
    GST_BUFFER_PTS(buffer) = gst_util_uint64_scale(first, GST_SECOND, 8000);
    if (is_discont)
        GST_BUFFER_FLAG_SET(buffer, GST_BUFFER_FLAG_DISCONT);
    fail_unless_equals_int(gst_harness_push(h, buffer), GST_FLOW_OK);
    GstBuffer *out;
    while ((out = gst_harness_try_pull(h)))
        gst_buffer_unref(out);
}

/* What was posted of frames since it was last asked for: for channels 1 and 2 of a setup the number of the sample with which the first of
 * them begins, and how many there are. */
struct told {
    gint64 first[3];
    guint frames[3];
};

static struct told told_since(GstBus *bus)
{
    struct told told = {{-1, -1, -1}, {0, 0, 0}};
    GstMessage *message;
    while ((message = gst_bus_pop_filtered(bus, GST_MESSAGE_ELEMENT))) {
        const GstStructure *said = gst_message_get_structure(message);
        guint channel = 0;
        guint64 at = 0;
        fail_unless(gst_structure_get_uint(said, "channel", &channel) && gst_structure_get_uint64(said, "running-time", &at) && channel < 3);
        if (!told.frames[channel])
            told.first[channel] = (gint64)gst_util_uint64_scale_round(at, 8000, GST_SECOND);
        told.frames[channel] += gst_value_array_get_size(gst_structure_get_value(said, "words"));
        gst_message_unref(message);
    }
    return told;
}

GST_START_TEST(times_of_listeners)
{
    /* frames of 100 samples, and frames of 50 behind a decimator by 3 */
    GstHarness *h = playing("rokdaum", "create 0 level 0 100 0; create 1 decim 0 3 10922 10922 10922; create 2 level 0 50 0; create 3 gain 0 4096; chain 0 3; chain 1 0; chain 2 1 2");
    GstBus *bus = with_bus(h);
    gst_harness_set_caps_str(h, RAW(8000, 1), RAW(8000, 1));
    push_zeros(h, 0, 160, FALSE);
    struct told told = told_since(bus);
    fail_unless(told.first[1] == 0 && told.frames[1] == 1 && told.first[2] == 0 && told.frames[2] == 1);
    push_zeros(h, 160, 70, FALSE);
    told = told_since(bus);
    fail_unless(told.first[1] == 100 && told.frames[1] == 1 && told.frames[2] == 0);
    /* only the first is reset: its frames begin anew at 230, and the other goes on at 150 */
    must_say(h->element, "control 0 reset", "ok");
    push_zeros(h, 230, 300, FALSE);
    told = told_since(bus);
    fail_unless(told.first[1] == 230 && told.frames[1] == 3 && told.first[2] == 150 && told.frames[2] == 2);
    /* the second begins anew with the next sample that its decimator gives, of which two parts are there already */
    must_say(h->element, "control 2 reset", "ok");
    push_zeros(h, 530, 300, FALSE);
    told = told_since(bus);
    fail_unless(told.first[1] == 530 && told.frames[1] == 3 && told.first[2] == 528 && told.frames[2] == 2);
    /* with its decimator's reset the two that wait, and one that comes, are lost: the frame that began at 828 ends two later */
    push_zeros(h, 830, 30, FALSE);
    must_say(h->element, "control 1 reset", "ok");
    push_zeros(h, 860, 119, FALSE);
    fail_unless(told_since(bus).frames[2] == 0);
    push_zeros(h, 979, 1, FALSE);
    told = told_since(bus);
    fail_unless(told.frames[2] == 1 && told.first[2] == 830);
    without_bus(h, bus);
    gst_harness_teardown(h);
}
GST_END_TEST

/* What is heard of two ends: 80 pairs a frame, and the audio passes by as it is. */
GST_START_TEST(listeners_of_two_ends)
{
    static gint16 in[2 * 400];
    static const char *const setups[] = {CANCELLER "create 1 level 0 80 0; chain 0 0 1", CANCELLER "create 1 activity 0 80 6 3 6 320 0; chain 0 0 1"};
    for (guint at = 0; at < G_N_ELEMENTS(setups); at++) {
        GstHarness *h = playing("rokdaum", setups[at]);
        GstBus *bus = with_bus(h);
        guint frames = 0;
        gst_harness_set_caps_str(h, RAW(8000, 2), RAW(8000, 2));
        /* the near end talks from the third frame on */
        for (guint k = 0; k < 400; k++)
            in[2 * k + 1] = (gint16)(k < 160 ? 0 : k % 2 ? 5000 : -5000);
        for (guint done = 0; done < 400; done += 50) {
            GstBuffer *buffer = buffer_of(in + 2 * done, 200);
            GST_BUFFER_PTS(buffer) = gst_util_uint64_scale(done, GST_SECOND, 8000);
            fail_unless_equals_int(gst_harness_push(h, buffer), GST_FLOW_OK);
            gst_buffer_unref(gst_harness_pull(h));
        }
        GstMessage *message;
        while ((message = gst_bus_pop_filtered(bus, GST_MESSAGE_ELEMENT))) {
            const GstStructure *said = gst_message_get_structure(message);
            const GValue *words = gst_structure_get_value(said, "words");
            guint64 begins, lasts;
            fail_unless(words && gst_structure_get_uint64(said, "running-time", &begins) && gst_structure_get_uint64(said, "frame-duration", &lasts));
            fail_unless_equals_uint64(begins, frames * 10 * GST_MSECOND);
            fail_unless_equals_uint64(lasts, 10 * GST_MSECOND);
            for (guint k = 0; k < gst_value_array_get_size(words); k++, frames++)
                fail_unless_equals_int(g_value_get_int(gst_value_array_get_value(words, k)) > 0, frames >= 2);
            gst_message_unref(message);
        }
        fail_unless_equals_int(frames, 5);
        without_bus(h, bus);
        gst_harness_teardown(h);
    }
}
GST_END_TEST

GST_START_TEST(times_behind_a_gap)
{
    gint16 in[100] = {0};
    /* 100 samples are 12 outputs, and four wait when samples are lost */
    GstHarness *h = made("create 0 decim 0 8 4096 4096 4096 4096 4096 4096 4096 4096; chain 0 0", RAW(8000, 1), RAW(1000, 1));
    push_zeros(h, 0, 100, FALSE);
    GstBuffer *buffer = buffer_of(in, sizeof in);
    GST_BUFFER_PTS(buffer) = gst_util_uint64_scale(1000, GST_SECOND, 8000);
    GST_BUFFER_FLAG_SET(buffer, GST_BUFFER_FLAG_DISCONT);
    fail_unless_equals_int(gst_harness_push(h, buffer), GST_FLOW_OK);
    buffer = gst_harness_pull(h);
    fail_unless_equals_uint64(GST_BUFFER_PTS(buffer), gst_util_uint64_scale(996, GST_SECOND, 8000));
    fail_unless_equals_int(gst_buffer_get_size(buffer), 2 * 13);
    gst_buffer_unref(buffer);
    gst_harness_teardown(h);
}
GST_END_TEST

/* The time of the first digit, which begins at 0, in samples. */
static guint64 first_digit(const char *launch, const char *setup)
{
    static gint16 in[1280];
    GstHarness *h = playing(launch, setup);
    GstBus *bus = with_bus(h);
    guint64 at = 0;
    dial("5", in);
    gst_harness_set_caps_str(h, RAW(8000, 1), RAW(8000, 1));
    GstBuffer *buffer = buffer_of(in, sizeof in);
    GST_BUFFER_PTS(buffer) = 0;
    fail_unless_equals_int(gst_harness_push(h, buffer), GST_FLOW_OK);
    GstMessage *message = gst_bus_pop_filtered(bus, GST_MESSAGE_ELEMENT);
    fail_unless(message && gst_structure_get_uint64(gst_message_get_structure(message), "running-time", &at));
    gst_message_unref(message);
    fail_unless(gst_bus_pop_filtered(bus, GST_MESSAGE_ELEMENT) == NULL);
    without_bus(h, bus);
    gst_harness_teardown(h);
    return gst_util_uint64_scale_round(at, 8000, GST_SECOND);
}

GST_START_TEST(frames_of_a_digit)
{
    static const char a[] = "create 0 dtmf 0 102 7 91 2920 7336 5827 22938; chain 0 0", b[] = "create 0 dtmf 0 92 7 82 2920 7336 9235 20316; chain 0 0";
    fail_unless_equals_uint64(first_digit("rokdaum", a), 2 * 102);
    fail_unless_equals_uint64(first_digit("rokdaum", b), 3 * 92);
    fail_unless_equals_uint64(first_digit("rokdaum digit-frames=1", b), 92);
    fail_unless_equals_uint64(first_digit("rokdaum digit-frames=4", a), 4 * 102);
}
GST_END_TEST

/* Why an element doesn't start, or null where it does. It is in PAUSED then, and of the caller. */
static char *start_alone(GstElement **element, const char *launch, const char *setup)
{
    GstBus *bus = gst_bus_new();
    char *why = NULL;
    *element = gst_parse_launch(launch, NULL);
    gst_object_ref_sink(*element);
    gst_element_set_bus(*element, bus);
    g_object_set(*element, "setup", setup, NULL);
    if (gst_element_set_state(*element, GST_STATE_PAUSED) == GST_STATE_CHANGE_FAILURE) {
        GstMessage *message = gst_bus_pop_filtered(bus, GST_MESSAGE_ERROR);
        GError *error = NULL;
        fail_unless(message != NULL);
        gst_message_parse_error(message, &error, NULL);
        why = g_strdup(error->message);
        g_error_free(error);
        gst_message_unref(message);
    }
    gst_bus_set_flushing(bus, TRUE);
    gst_element_set_bus(*element, NULL);
    gst_object_unref(bus);
    return why;
}

static void end_alone(GstElement *element)
{
    gst_element_set_state(element, GST_STATE_NULL);
    gst_object_unref(element);
}

GST_START_TEST(elements_of_a_host_agree)
{
    GstElement *first, *other;
    fail_unless(start_alone(&first, "rokdaum host=agreed daram=4096 poison=7", average) == NULL);
    static const struct {
        const char *launch, *why;
    } others[] = {
        {"rokdaum host=agreed", NULL},
        {"rokdaum host=agreed daram=4096 saram=65536 poison=7", NULL},
        {"rokdaum host=agreed daram=8192", "The setup is refused: host agreed is open with 4096 words of daram, and 8192 are asked for: its elements name the same sizes."},
        {"rokdaum host=agreed poison=8", "The setup is refused: host agreed is open with another poison: its elements name the same one."},
        {"rokdaum host=agreed poison=-1", "The setup is refused: host agreed is open with another poison: its elements name the same one."},
        {"rokdaum host=other daram=8192", NULL},
        {"rokdaum daram=8191", "The setup is refused: open a host: a space isn't 0 to 65,536 words, a multiple of 4, or the channels aren't 1 to 16."},
    };
    for (guint k = 0; k < G_N_ELEMENTS(others); k++) {
        char *why = start_alone(&other, others[k].launch, average);
        fail_unless_equals_string(why, others[k].why);
        g_free(why);
        end_alone(other);
    }
    /* once nobody has it any more, the next one opens it */
    end_alone(first);
    fail_unless(start_alone(&other, "rokdaum host=agreed daram=8192", average) == NULL);
    end_alone(other);
}
GST_END_TEST

/* A setup that is refused with these last words. Frees it. */
static void must_end(GString *setup, const char *wanted)
{
    GstElement *element;
    char *why = start_alone(&element, "rokdaum", setup->str);
    fail_unless(why && g_str_has_suffix(why, wanted), "%s", why);
    g_free(why);
    g_string_free(setup, TRUE);
    end_alone(element);
}

GST_START_TEST(setups_that_are_refused)
{
    static const struct {
        const char *setup, *why;
    } wrong[] = {
        {"create 0 fir 0 1\n# fine\ncreate 1 fir 0 x; chain 0 0", "line 3: create 1 fir 0 x: a word is a whole number from -32768 to 32767"},
        {"create 64 fir 0 1; chain 0 64", "line 1: create 64 fir 0 1: an instance is 0 to 63, and a group 0 to 7"},
        {"create 0 fir 0 1; create 0 fir 0 1", "line 2: create 0 fir 0 1: the instance is there already"},
        {"create 0 fir 0 1; chain 0 0 0", "line 2: chain 0 0 0: an instance is named twice"},
        {"create 0 fir 0 1; chain 0 0; chain 1 0", "line 3: chain 1 0: an instance is in a channel already"},
        {"create 0 fir 0 1; chain 0 1", "line 2: chain 0 1: an instance isn't there"},
        {"create 0 fir 0 1; create 1 fir 0 1; chain 0 0; chain 1 1", "each channel but 0 ends in a detector (tone, level, dtmf, activity)"},
        {"create 0 fir 0 1; create 1 g711 0 1 1; create 2 level 0 4 0; chain 0 0; chain 1 1 2", "each channel hears what channel 0 hears: codes of the same law, or samples"},
        {"create 0 fir 0 1; chain 0 0; feed 0 all", "line 3: feed 0 all: a setup has create, chain and control I set"},
        {"create 0 fir 0 1", "no line chains channel 0"},
        {"create 0 fir 0 1; chain 0 0; control 0 reset", "line 3: control 0 reset: control I set W .."},
        {"create 0 fir 0 1; create 1 echo 0 4 0 0 0; chain 0 0 1", "line 3: chain 0 0 1: an echo begins its channel, or is second behind a decoder of G.711"},
        {"create 0 g711 0 1 0; create 1 echo 0 4 0 0 0; chain 0 0 1", "line 3: chain 0 0 1: an echo begins its channel, or is second behind a decoder of G.711"},
        {"create 0 echo 0 4 0 0 0; create 1 level 0 4 0; chain 0 0; chain 1 1", "each channel hears what channel 0 hears: two ends of a line, which an echo takes, or one"},
        {"create 0 adpcm 0 32 1; create 1 fir 0 1; chain 0 0 1", "line 3: chain 0 0 1: codes of G.726 don't leave the element: a channel encodes, and then decodes"},
        {"create 0 fir 0 1; create 1 adpcm 0 32 0; chain 0 0 1", "line 3: chain 0 0 1: codes of G.726 don't leave the element: a channel encodes, and then decodes"},
    };
    for (guint k = 0; k < G_N_ELEMENTS(wrong); k++) {
        GstElement *element;
        char *why = start_alone(&element, "rokdaum", wrong[k].setup), *wanted = g_strdup_printf("The setup is refused: %s.", wrong[k].why);
        fail_unless_equals_string(why, wanted);
        g_free(wanted);
        g_free(why);
        end_alone(element);
    }
    /* one word more than there may be is seen, and so is a rate that is divided by more than there is */
    GString *words = g_string_new("create 0 fir 0"), *factors = g_string_new("");
    for (guint at = 0; at < ROKDAUM_PARAMETER_WORDS + 1; at++)
        g_string_append(words, " 1");
    for (guint at = 0; at < ROKDAUM_MEMBERS; at++)
        g_string_append_printf(factors, "create %u decim 0 16 1; ", at);
    g_string_append(words, "; chain 0 0");
    g_string_append(factors, "chain 0 0 1 2 3 4 5 6 7");
    must_end(words, "at most 72 words.");
    must_end(factors, "a channel divides the rate by 1,048,576 at most.");
}
GST_END_TEST

GST_START_TEST(setups_from_files)
{
    char *room = g_dir_make_tmp("rokdaum-XXXXXX", NULL), *path = g_build_filename(room, "setup", NULL), *said = NULL;
    GstElement *element = gst_element_factory_make("rokdaum", NULL);
    gst_object_ref_sink(element);
    g_object_set(element, "location", path, NULL);
    fail_unless_equals_int(gst_element_set_state(element, GST_STATE_PAUSED), GST_STATE_CHANGE_FAILURE);
    gst_element_set_state(element, GST_STATE_NULL);
    fail_unless(g_file_set_contents(path, "# as dsp_design has it\ncreate 0 fir 0 16384 16384\nchain 0 0\n", -1, NULL));
    g_object_set(element, "location", path, NULL);
    fail_unless(gst_element_set_state(element, GST_STATE_PAUSED) != GST_STATE_CHANGE_FAILURE);
    g_object_get(element, "location", &said, NULL);
    fail_unless_equals_string(said, path);
    g_free(said);
    gst_element_set_state(element, GST_STATE_NULL);
    fail_unless(g_file_set_contents(path, "create 0 fir 0 1\nchain 0 0\n\0", 28, NULL));
    g_object_set(element, "location", path, NULL);
    fail_unless_equals_int(gst_element_set_state(element, GST_STATE_PAUSED), GST_STATE_CHANGE_FAILURE);
    gst_element_set_state(element, GST_STATE_NULL);
    gst_object_unref(element);
    fail_unless_equals_int(g_unlink(path), 0);
    fail_unless_equals_int(g_rmdir(room), 0);
    g_free(path);
    g_free(room);
}
GST_END_TEST

static Suite *rokdaum_suite(void)
{
    Suite *suite = suite_create("rokdaum");
    TCase *all = tcase_create("element");
    suite_add_tcase(suite, all);
    tcase_set_timeout(all, 120);
    tcase_add_test(all, cuts_give_what_the_library_gives);
    tcase_add_test(all, sixteen_channels);
    tcase_add_test(all, a_decimator_has_another_rate_and_times);
    tcase_add_test(all, caps);
    tcase_add_test(all, codes_in_and_out);
    tcase_add_test(all, two_ends_of_a_line);
    tcase_add_test(all, codes_of_two_ends);
    tcase_add_test(all, coders_and_generators);
    tcase_add_test(all, digits_and_levels_are_posted);
    tcase_add_test(all, what_is_changed_while_it_runs);
    tcase_add_test(all, a_filter_becomes_a_listener_and_back);
    tcase_add_test(all, errors_are_posted);
    tcase_add_test(all, elements_share_a_host);
    tcase_add_test(all, threads_share_a_host);
    tcase_add_test(all, flushes_and_discontinuities);
    tcase_add_test(all, what_the_fuzz_found);
    tcase_add_test(all, times_of_listeners);
    tcase_add_test(all, listeners_of_two_ends);
    tcase_add_test(all, times_behind_a_gap);
    tcase_add_test(all, frames_of_a_digit);
    tcase_add_test(all, elements_of_a_host_agree);
    tcase_add_test(all, setups_that_are_refused);
    tcase_add_test(all, setups_from_files);
    return suite;
}
GST_CHECK_MAIN(rokdaum)
