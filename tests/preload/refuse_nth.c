/* SPDX-License-Identifier: Apache-2.0 */
/* Refuses the request for memory whose number stands in REFUSE (from 1), and at the end writes how many there were into the file named by COUNTED. */
#define _GNU_SOURCE
#include <dlfcn.h>
#include <errno.h>
#include <fcntl.h>
#include <stdio.h>
#include <stdlib.h>
#include <string.h>
#include <unistd.h>

static unsigned long made, refused;
static void *(*real_malloc)(size_t), *(*real_calloc)(size_t, size_t), *(*real_realloc)(void *, size_t), *(*real_aligned)(size_t, size_t);
static int (*real_memalign)(void **, size_t, size_t);
static char early[4096];
static size_t early_used;

static void find(void)
{
    static int busy;
    if (real_malloc || busy)
        return;
    busy = 1;
    const char *n = getenv("REFUSE");
    refused = n ? strtoul(n, 0, 10) : 0;
    real_calloc = dlsym(RTLD_NEXT, "calloc");
    real_realloc = dlsym(RTLD_NEXT, "realloc");
    real_aligned = dlsym(RTLD_NEXT, "aligned_alloc");
    real_memalign = dlsym(RTLD_NEXT, "posix_memalign");
    real_malloc = dlsym(RTLD_NEXT, "malloc");
    busy = 0;
}

static int is_refused(void)
{
    find();
    if (++made == refused) {
        errno = ENOMEM;
        return 1;
    }
    return 0;
}

void *malloc(size_t n) { return is_refused() ? 0 : real_malloc ? real_malloc(n) : 0; }
void *calloc(size_t n, size_t m)
{
    find();
    if (!real_calloc) { /* dlsym itself asks */
        void *at = early + early_used;
        early_used += (n * m + 15) & ~(size_t)15;
        return early_used <= sizeof early ? at : 0;
    }
    return is_refused() ? 0 : real_calloc(n, m);
}
void *realloc(void *at, size_t n) { return is_refused() ? 0 : real_realloc(at, n); }
void *aligned_alloc(size_t a, size_t n) { return is_refused() ? 0 : real_aligned(a, n); }
int posix_memalign(void **at, size_t a, size_t n) { return is_refused() ? ENOMEM : real_memalign(at, a, n); }

__attribute__((destructor)) static void tell(void)
{
    const char *name = getenv("COUNTED");
    char text[32];
    int file = name ? open(name, O_WRONLY | O_CREAT | O_TRUNC, 0600) : -1;
    if (file >= 0) {
        int n = snprintf(text, sizeof text, "%lu\n", made);
        if (write(file, text, (size_t)n) != n)
            _exit(99);
        close(file);
    }
}
