/* SPDX-License-Identifier: Apache-2.0
 * What a proved program asks of C beside the C library, on a Linux for whose processor the kit has no such library: memory, arguments,
 * environment and errno. It is trusted: no proof covers it. The contracts of these functions are those of the kit's crates os and libc. */
#include <errno.h>
#include <stdbool.h>
#include <stddef.h>
#include <stdint.h>
#include <stdlib.h>
#include <string.h>

struct allocated {
    bool there;
    void *at;
};

static char nowhere[16];
static char **words;
static size_t word_count;
extern char **environ;

/* glibc gives the words of the command line to a constructor, before main. */
__attribute__((constructor)) static void keep(int argc, char **argv)
{
    word_count = (size_t)argc;
    words = argv;
}

static struct allocated answer(void *at)
{
    return (struct allocated){at != 0, at ? at : nowhere};
}

struct allocated rattle_alloc(size_t size, size_t align)
{
    (void)align; /* at most 16, as malloc aligns */
    return answer(malloc(size));
}

struct allocated rattle_realloc(void *memory, size_t kept, size_t size, size_t align)
{
    (void)kept, (void)align;
    return answer(realloc(memory, size));
}

void rattle_dealloc(void *memory)
{
    free(memory);
}

/* The length of a text, which is put at the start of a buffer; -1 if there is none, -2 if it doesn't fit. */
static int64_t put(const char *text, char *buffer, size_t room)
{
    if (!text)
        return -1;
    size_t length = strlen(text);
    memcpy(buffer, text, length < room ? length : room);
    return length <= room ? (int64_t)length : -2;
}

size_t rattle_arg_count(void)
{
    return word_count;
}

int64_t rattle_arg(size_t i, char *buffer, size_t room)
{
    return put(i < word_count ? words[i] : 0, buffer, room);
}

int64_t rattle_env(const char *name, char *buffer, size_t room)
{
    return put(getenv(name), buffer, room);
}

int64_t rattle_env_at(size_t i, char *buffer, size_t room)
{
    size_t k = 0;
    while (environ[k] && k < i)
        k++;
    return put(environ[k], buffer, room);
}

int rattle_errno(void)
{
    return errno;
}

void rattle_set_errno(int error)
{
    errno = error;
}

/* A program for x86-64 asks whether the processor has what it was compiled for; compiled for another, it has. */
const void *__x86_get_cpuid_feature_leaf(unsigned leaf)
{
    static const unsigned all[8] = {~0u, ~0u, ~0u, ~0u, ~0u, ~0u, ~0u, ~0u};
    (void)leaf;
    return all;
}
