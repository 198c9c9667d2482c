/* SPDX-License-Identifier: Apache-2.0 */
/* Devices that break, are interrupted, or give and take little at a time: put before a program by LD_PRELOAD.
 *
 * Of each call of read and write (not of the standard error's) it decides by a seed. The environment says:
 *
 *   FAULT_SEED     the seed, a number
 *   FAULT_SHORT    of 256 calls so many are shortened, to a length by chance from 1 on
 *   FAULT_ONE      where it is 1, each call gives or takes one byte
 *   FAULT_AT       the number of the call that fails, from 0; absent: none fails
 *   FAULT_ERRNO    its errno; 0 at a write: it takes no byte
 *   FAULT_STAYS    where it is 1, that descriptor's later calls fail as well; else only the one does
 *   FAULT_CLOSE    the errno of each call of close; absent: none fails
 *   FAULT_REPORT   a file that is told at the end which call failed first, "KIND DESCRIPTOR", where KIND is read,
 *                  write or none, and then, of each descriptor from 0 on, how many bytes were read and how
 *                  often its end was, "BYTES:ENDS"
 */
#define _GNU_SOURCE
#include <errno.h>
#include <fcntl.h>
#include <stdint.h>
#include <stdio.h>
#include <stdlib.h>
#include <sys/syscall.h>
#include <unistd.h>

static uint64_t state;
static long calls, fail_at = -1;
static int shortened, one, failure, stays, at_close, failed_descriptor = -1;
static const char *kind = "none";

#define DESCRIPTORS 64
static unsigned long taken[DESCRIPTORS], ends[DESCRIPTORS];

static long number(const char *name, long otherwise) {
    const char *text = getenv(name);
    return text ? strtol(text, NULL, 10) : otherwise;
}

__attribute__((constructor)) static void begin(void) {
    state = (uint64_t)number("FAULT_SEED", 0);
    shortened = (int)number("FAULT_SHORT", 0);
    one = (int)number("FAULT_ONE", 0);
    fail_at = number("FAULT_AT", -1);
    failure = (int)number("FAULT_ERRNO", EIO);
    stays = (int)number("FAULT_STAYS", 0);
    at_close = (int)number("FAULT_CLOSE", 0);
}

__attribute__((destructor)) static void end(void) {
    const char *path = getenv("FAULT_REPORT");
    char text[48 * DESCRIPTORS];
    int length = snprintf(text, sizeof text, "%s %d", kind, failed_descriptor);
    for (int descriptor = 0; descriptor < DESCRIPTORS; descriptor++)
        length += snprintf(text + length, sizeof text - (size_t)length, " %lu:%lu", taken[descriptor],
                           ends[descriptor]);
    int file = path ? (int)syscall(SYS_openat, AT_FDCWD, path, O_WRONLY | O_CREAT | O_TRUNC, 0600) : -1;
    if (file >= 0) {
        syscall(SYS_write, file, text, (size_t)length);
        syscall(SYS_close, file);
    }
}

/* The generator SplitMix64. */
static uint64_t next_random(void) {
    uint64_t z = (state += 0x9e3779b97f4a7c15u);
    z = (z ^ (z >> 30)) * 0xbf58476d1ce4e5b9u;
    z = (z ^ (z >> 27)) * 0x94d049bb133111ebu;
    return z ^ (z >> 31);
}

/* The length of a call. */
static size_t some_of(size_t count) {
    if (count > 1 && one)
        return 1;
    if (count > 1 && (int)(next_random() & 255) < shortened)
        return 1 + next_random() % count;
    return count;
}

/* Whether this call fails. */
static int fails(int descriptor, const char *what) {
    if (calls++ == fail_at) {
        kind = what;
        failed_descriptor = descriptor;
        return 1;
    }
    return stays && descriptor == failed_descriptor;
}

ssize_t read(int descriptor, void *buffer, size_t count) {
    if (fails(descriptor, "read")) {
        errno = failure ? failure : EIO;
        return -1;
    }
    ssize_t got = syscall(SYS_read, descriptor, buffer, some_of(count));
    if (descriptor >= 0 && descriptor < DESCRIPTORS) {
        taken[descriptor] += got > 0 ? (unsigned long)got : 0;
        ends[descriptor] += got == 0 && count > 0;
    }
    return got;
}

ssize_t write(int descriptor, const void *buffer, size_t count) {
    if (descriptor == STDERR_FILENO)
        return syscall(SYS_write, descriptor, buffer, count);
    if (fails(descriptor, "write")) {
        errno = failure;
        return failure ? -1 : 0;
    }
    return syscall(SYS_write, descriptor, buffer, some_of(count));
}

/* The descriptor is closed in any case, as Linux does it. */
int close(int descriptor) {
    int status = (int)syscall(SYS_close, descriptor);
    if (status == 0 && at_close) {
        errno = at_close;
        status = -1;
    }
    return status;
}
