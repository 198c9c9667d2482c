/* SPDX-License-Identifier: Apache-2.0
 * What a test expects, and how many times it was wrong. */
#ifndef WANTED_H
#define WANTED_H
#include <stdio.h>

static int passed, failed;

static void want(const char *what, long got, long wanted)
{
    if (got == wanted) {
        passed++;
    } else {
        failed++;
        printf("%s: %ld in place of %ld\n", what, got, wanted);
    }
}

static int told(void)
{
    printf("%d passed, %d failed\n", passed, failed);
    return failed != 0 || passed == 0;
}
#endif
