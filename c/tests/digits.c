/* SPDX-License-Identifier: Apache-2.0
 * What rokdaum_dialled makes of codes that are written out here, and that cuts into calls don't show. */
#include "rokdaum.h"
#include "wanted.h"
#include <string.h>

enum { MOST = 4000 };

/* Codes as text: the keys of ROKDAUM_DTMF_KEYS, and a dot for a frame without one. */
static size_t codes_of(const char *text, int16_t *codes)
{
    size_t count = strlen(text);
    for (size_t k = 0; k < count; k++)
        codes[k] = text[k] == '.' ? -1 : (int16_t)(strchr(ROKDAUM_DTMF_KEYS, text[k]) - ROKDAUM_DTMF_KEYS);
    return count;
}

static void dials(rokdaum_digits digits, const char *frames, const char *wanted)
{
    int16_t codes[MOST];
    char dialled[MOST + 1];
    size_t count = codes_of(frames, codes), given = 0;
    want(frames, rokdaum_dialled(&digits, codes, count, dialled, MOST, &given), ROKDAUM_OK);
    dialled[given] = 0;
    want(frames, strcmp(dialled, wanted), 0);
}

static void random_cuts(rokdaum_digits digits)
{
    static int16_t codes[MOST];
    static char whole[MOST], cut[MOST];
    rokdaum_digits other = digits;
    size_t all = 0, given = 0, some;
    uint32_t state = 1;
    for (int k = 0; k < MOST; k++) {
        state = state * 1664525u + 1013904223u;
        codes[k] = k && state >> 30 ? codes[k - 1] : (int16_t)((state >> 20) % 4 - 1);
    }
    want("all at once", rokdaum_dialled(&digits, codes, MOST, whole, MOST, &all), ROKDAUM_OK);
    want("some digits", all > MOST / 20, 1);
    for (size_t done = 0; done < MOST; done += some) {
        size_t more = 0;
        some = done % 7 + 1 < MOST - done ? done % 7 + 1 : MOST - done;
        want("a few at a time", rokdaum_dialled(&other, codes + done, some, cut + given, MOST - given, &more), ROKDAUM_OK);
        given += more;
    }
    want("as many", (long)given, (long)all);
    want("the same", memcmp(cut, whole, all), 0);
    want("what is remembered", memcmp(&digits, &other, sizeof digits), 0);
}

int main(void)
{
    static const rokdaum_digits a = ROKDAUM_DIGITS_A, b = ROKDAUM_DIGITS_B, once = {1, 1, -1, -1, 0, 0};
    dials(a, "", "");
    dials(a, "1.22.333#", "23");
    dials(a, "11111", "1");
    dials(a, "11.11", "1"); /* one frame away: it is still held down */
    dials(a, "11..11", "11");
    dials(a, "11..1", "1");
    dials(a, "1122", "12");
    dials(a, "11211", "1");
    dials(a, "112211", "121");
    dials(a, "112.11", "11"); /* the second digit didn't last, and the first was away for two frames */
    dials(a, "**00##DD", "*0#D");
    dials(b, "11..222..33", "2");
    dials(b, "111.111", "1");
    dials(b, "111..111", "11");
    dials(once, "1.122", "112");
    random_cuts(a);
    random_cuts(b);
    random_cuts(once);
    return told();
}
