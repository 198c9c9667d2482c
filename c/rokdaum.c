/* SPDX-License-Identifier: Apache-2.0
 *
 * The layer between C and the proved entry points. Nothing here is proved: it tests for null pointers, keeps the allocator at hand
 * while a host is opened or closed, says in words what a code means, and has the rule by which codes are dialled digits.
 *
 * ROKDAUM_NO_HEAP leaves malloc and free out: rokdaum_open then answers ROKDAUM_NO_MEMORY, and rokdaum_open_with needs an allocator.
 * ROKDAUM_ONE_THREAD keeps the allocator in a plain static, for targets without thread-local storage. */
#include "proved.h"

#include <stdbool.h>
#ifndef ROKDAUM_NO_HEAP
#include <stdlib.h>
#endif

#ifdef ROKDAUM_ONE_THREAD
#define PER_THREAD
#else
#define PER_THREAD _Thread_local
#endif

_Static_assert(sizeof(rokdaum_handle) == sizeof(((rokdaum *)0)->machine), "a handle is the machine of a rokdaum");
_Static_assert(sizeof(rokdaum_handle) == 16, "a handle is two words of 64 bits, also where addresses have 32");
_Static_assert(sizeof(rokdaum_length) == 8, "a length has 64 bits");
_Static_assert(sizeof(rokdaum_block) == 24, "a block is six words of 32 bits");
_Static_assert(offsetof(rokdaum_handle, at) == 8, "the pointer comes after the mark");

/* ---- What the proved code asks for ---- */

/* Whether there is memory, and where it begins: a pointer that isn't null in both cases. */
struct allocated {
    bool there;
    void *at;
};
static const char nowhere;
/* Whose memory serves while a host is opened or closed. An allocator may open another host meanwhile. */
static PER_THREAD const rokdaum_allocator *current;

#ifdef ROKDAUM_NO_HEAP
static void *heap_allocate(void *context, size_t size, size_t align)
{
    (void)context, (void)size, (void)align;
    return 0;
}

static void heap_release(void *context, void *memory)
{
    (void)context, (void)memory;
}
#else
static void *heap_allocate(void *context, size_t size, size_t align)
{
    (void)context, (void)align;
    return malloc(size);
}

static void heap_release(void *context, void *memory)
{
    (void)context;
    free(memory);
}
#endif

static const rokdaum_allocator heap = {heap_allocate, heap_release, 0};

static struct allocated allocated(size_t size, size_t align)
{
    void *at = current->allocate(current->context, size ? size : align, align);
    return (struct allocated){at != 0, at ? at : (void *)&nowhere};
}

#if UINTPTR_MAX > 0xffffffff
struct allocated rattle_alloc(size_t size, size_t align);
struct allocated rattle_alloc(size_t size, size_t align)
{
    return allocated(size, align);
}

/* The library grows no block: it is linked, and never called. */
struct allocated rattle_realloc(void *memory, size_t kept, size_t size, size_t align);
struct allocated rattle_realloc(void *memory, size_t kept, size_t size, size_t align)
{
    (void)memory, (void)kept, (void)size, (void)align;
    return (struct allocated){false, (void *)&nowhere};
}
#else
/* Addresses of 32 bits: ports/to32.py has the answer written to the caller's memory, the flag and the pointer in 64 bits each. */
static void answer(uint64_t *to, struct allocated from)
{
    to[0] = from.there;
    to[1] = (uintptr_t)from.at;
}

void rokdaum_rattle_alloc(uint64_t *to, uint64_t size, uint64_t align);
void rokdaum_rattle_alloc(uint64_t *to, uint64_t size, uint64_t align)
{
    answer(to, size <= SIZE_MAX ? allocated((size_t)size, (size_t)align) : (struct allocated){false, (void *)&nowhere});
}

void rokdaum_rattle_realloc(uint64_t *to, void *memory, uint64_t kept, uint64_t size, uint64_t align);
void rokdaum_rattle_realloc(uint64_t *to, void *memory, uint64_t kept, uint64_t size, uint64_t align)
{
    (void)memory, (void)kept, (void)size, (void)align;
    answer(to, (struct allocated){false, (void *)&nowhere});
}
#endif

void rattle_dealloc(void *memory);
void rattle_dealloc(void *memory)
{
    current->release(current->context, memory);
}

/* ---- The library ---- */

const char *rokdaum_version(void)
{
    return ROKDAUM_VERSION;
}

const char *rokdaum_error_text(rokdaum_code code)
{
    switch (code) {
    case ROKDAUM_OK: return "ok";
    case ROKDAUM_RANGE: return "the number of an instance, a group or a channel is too large";
    case ROKDAUM_TAKEN: return "the instance lives already, or the channel has members already";
    case ROKDAUM_MISSING: return "the instance doesn't live, or the channel has no members";
    case ROKDAUM_PARAMS: return "the algorithm doesn't take these parameters";
    case ROKDAUM_ROOM: return "a memory space has no free place";
    case ROKDAUM_BUSY: return "the instance is a member of a channel, or is named twice";
    case ROKDAUM_COMMAND: return "the algorithm doesn't take this control command";
    case ROKDAUM_BAD_SIZE: return "a space isn't 0 to 65,536 words, a multiple of 4, or the channels aren't 1 to 16";
    case ROKDAUM_NO_MEMORY: return "the allocator refuses";
    case ROKDAUM_NOT_OPEN: return "the handle isn't open";
    case ROKDAUM_OPEN: return "the handle is open already";
    case ROKDAUM_BAD_LENGTH: return "too few or too many items, or too little room";
    case ROKDAUM_BAD_KIND: return "no algorithm has this number";
    case ROKDAUM_BAD_SPACE: return "no memory space has this number";
    case ROKDAUM_BAD_LAW: return "no companding law has this number";
    case ROKDAUM_NULL: return "a pointer is null";
    }
    return "no such code";
}

/* ---- Hosts ---- */

static rokdaum_handle *of(rokdaum *host)
{
    return (rokdaum_handle *)(void *)&host->machine;
}

rokdaum_code rokdaum_open_with(rokdaum *host, const rokdaum_options *options, const rokdaum_allocator *allocator)
{
    if (!host || !options || (allocator && (!allocator->allocate || !allocator->release)))
        return ROKDAUM_NULL;
    const rokdaum_allocator *serves = allocator ? allocator : &heap, *before = current;
    current = serves;
    int32_t code = rokdaum_proved_open(of(host), options);
    current = before;
    if (code == ROKDAUM_OK)
        host->allocator = serves;
    return (rokdaum_code)code;
}

rokdaum_code rokdaum_open(rokdaum *host, const rokdaum_options *options)
{
    return rokdaum_open_with(host, options, 0);
}

rokdaum_code rokdaum_close(rokdaum *host)
{
    if (!host)
        return ROKDAUM_NULL;
    const rokdaum_allocator *before = current;
    current = host->allocator;
    int32_t code = rokdaum_proved_close(of(host));
    current = before;
    if (code == ROKDAUM_OK)
        host->allocator = 0;
    return (rokdaum_code)code;
}

/* ---- Instances ---- */

rokdaum_code rokdaum_create(rokdaum *host, uint8_t instance, rokdaum_kind kind, uint8_t group, const int16_t *parameters, size_t count,
                            rokdaum_space *full)
{
    if (!host || (!parameters && count))
        return ROKDAUM_NULL;
    uint32_t space = 0;
    int32_t code = rokdaum_proved_create(of(host), instance, (uint32_t)kind, group, parameters, count, &space);
    if (code == ROKDAUM_ROOM && full)
        *full = (rokdaum_space)space;
    return (rokdaum_code)code;
}

rokdaum_code rokdaum_delete(rokdaum *host, uint8_t instance)
{
    return host ? (rokdaum_code)rokdaum_proved_delete(of(host), instance) : ROKDAUM_NULL;
}

rokdaum_code rokdaum_set(rokdaum *host, uint8_t instance, const int16_t *words, size_t count)
{
    return host && (words || !count) ? (rokdaum_code)rokdaum_proved_set(of(host), instance, words, count) : ROKDAUM_NULL;
}

rokdaum_code rokdaum_reset(rokdaum *host, uint8_t instance)
{
    return host ? (rokdaum_code)rokdaum_proved_reset(of(host), instance) : ROKDAUM_NULL;
}

rokdaum_code rokdaum_get(rokdaum *host, uint8_t instance, int16_t *words, size_t room, uint32_t *count)
{
    return host && (words || !room) && count ? (rokdaum_code)rokdaum_proved_get(of(host), instance, words, room, count) : ROKDAUM_NULL;
}

/* ---- Channels ---- */

rokdaum_code rokdaum_chain(rokdaum *host, uint8_t channel, const uint8_t *members, size_t count)
{
    return host && (members || !count) ? (rokdaum_code)rokdaum_proved_chain(of(host), channel, members, count) : ROKDAUM_NULL;
}

rokdaum_code rokdaum_unchain(rokdaum *host, uint8_t channel)
{
    return host ? (rokdaum_code)rokdaum_proved_unchain(of(host), channel) : ROKDAUM_NULL;
}

rokdaum_code rokdaum_ready(rokdaum *host, uint8_t channel)
{
    return host ? (rokdaum_code)rokdaum_proved_ready(of(host), channel) : ROKDAUM_NULL;
}

/* The one definition for callers that don't take that of the header. */
extern rokdaum_code rokdaum_feed(rokdaum *host, uint8_t channel, const int16_t *samples, size_t count, int16_t *out, size_t room, uint32_t *given);

rokdaum_code rokdaum_feed_all(rokdaum *host, uint8_t channel, const int16_t *samples, size_t count, int16_t *out, size_t room, size_t *given)
{
    if (!host || (!samples && count) || (!out && room) || !given)
        return ROKDAUM_NULL;
    int32_t code = rokdaum_proved_ready(of(host), channel);
    if (code == ROKDAUM_OK && room < count)
        code = ROKDAUM_BAD_LENGTH;
    if (code != ROKDAUM_OK)
        return (rokdaum_code)code;
    size_t written = 0;
    for (size_t done = 0; done < count;) {
        size_t block = count - done < ROKDAUM_BLOCK_SAMPLES ? count - done : ROKDAUM_BLOCK_SAMPLES;
        uint32_t some = 0;
        code = rokdaum_proved_feed(of(host), channel, samples + done, block, out + written, room - written, &some);
        if (code != ROKDAUM_OK)
            return (rokdaum_code)code;
        done += block;
        written += some;
    }
    *given = written;
    return ROKDAUM_OK;
}

/* ---- Memory and scratch groups ---- */

rokdaum_code rokdaum_step(rokdaum *host, rokdaum_space space, uint32_t *moved)
{
    return host && moved ? (rokdaum_code)rokdaum_proved_step(of(host), (uint32_t)space, moved) : ROKDAUM_NULL;
}

rokdaum_code rokdaum_compact(rokdaum *host, rokdaum_space space, uint32_t *moved)
{
    return host && moved ? (rokdaum_code)rokdaum_proved_compact(of(host), (uint32_t)space, moved) : ROKDAUM_NULL;
}

rokdaum_code rokdaum_copied(rokdaum *host, uint64_t *words)
{
    return host && words ? (rokdaum_code)rokdaum_proved_copied(of(host), words) : ROKDAUM_NULL;
}

rokdaum_code rokdaum_map(rokdaum *host, rokdaum_space space, rokdaum_block *blocks, size_t room, uint32_t *count)
{
    return host && (blocks || !room) && count ? (rokdaum_code)rokdaum_proved_map(of(host), (uint32_t)space, blocks, room, count) : ROKDAUM_NULL;
}

rokdaum_code rokdaum_release(rokdaum *host, uint8_t group, uint32_t *released)
{
    return host && released ? (rokdaum_code)rokdaum_proved_release(of(host), group, released) : ROKDAUM_NULL;
}

rokdaum_code rokdaum_stat(rokdaum *host, uint8_t group, int32_t *active, uint32_t *activations)
{
    return host && active && activations ? (rokdaum_code)rokdaum_proved_stat(of(host), group, active, activations) : ROKDAUM_NULL;
}

/* ---- Without a host ---- */

int16_t rokdaum_add(int16_t a, int16_t b)
{
    return rokdaum_proved_add(a, b);
}

int32_t rokdaum_l_mac(int32_t v, int16_t a, int16_t b)
{
    return rokdaum_proved_l_mac(v, a, b);
}

rokdaum_code rokdaum_div_s(int16_t a, int16_t b, int16_t *quotient)
{
    return quotient ? (rokdaum_code)rokdaum_proved_div_s(a, b, quotient) : ROKDAUM_NULL;
}

rokdaum_code rokdaum_add_block(const int16_t *a, const int16_t *b, int16_t *out, size_t count)
{
    return (a && b && out) || !count ? (rokdaum_code)rokdaum_proved_add_block(a, count, b, count, out, count) : ROKDAUM_NULL;
}

rokdaum_code rokdaum_sub_block(const int16_t *a, const int16_t *b, int16_t *out, size_t count)
{
    return (a && b && out) || !count ? (rokdaum_code)rokdaum_proved_sub_block(a, count, b, count, out, count) : ROKDAUM_NULL;
}

rokdaum_code rokdaum_mult_block(int16_t gain, const int16_t *samples, int16_t *out, size_t count)
{
    return (samples && out) || !count ? (rokdaum_code)rokdaum_proved_mult_block(gain, samples, count, out, count) : ROKDAUM_NULL;
}

rokdaum_code rokdaum_shl_block(const int16_t *samples, int16_t shift, int16_t *out, size_t count)
{
    return (samples && out) || !count ? (rokdaum_code)rokdaum_proved_shl_block(samples, count, shift, out, count) : ROKDAUM_NULL;
}

rokdaum_code rokdaum_shr_block(const int16_t *samples, int16_t shift, int16_t *out, size_t count)
{
    return (samples && out) || !count ? (rokdaum_code)rokdaum_proved_shr_block(samples, count, shift, out, count) : ROKDAUM_NULL;
}

rokdaum_code rokdaum_l_mac_block(int32_t v, const int16_t *a, const int16_t *b, size_t count, int32_t *sum)
{
    return sum && ((a && b) || !count) ? (rokdaum_code)rokdaum_proved_l_mac_block(v, a, count, b, count, sum) : ROKDAUM_NULL;
}

rokdaum_code rokdaum_fir(const int16_t *coefficients, size_t coefficient_count, const int16_t *line, size_t length, int16_t *out, size_t count)
{
    if ((!coefficients && coefficient_count) || (!line && length) || (!out && count))
        return ROKDAUM_NULL;
    return (rokdaum_code)rokdaum_proved_fir(coefficients, coefficient_count, line, length, out, count);
}

rokdaum_code rokdaum_g711_encode(rokdaum_law law, const int16_t *samples, uint8_t *codes, size_t count)
{
    return (samples && codes) || !count ? (rokdaum_code)rokdaum_proved_g711_encode((uint32_t)law, samples, count, codes, count) : ROKDAUM_NULL;
}

rokdaum_code rokdaum_g711_decode(rokdaum_law law, const uint8_t *codes, int16_t *samples, size_t count)
{
    return (samples && codes) || !count ? (rokdaum_code)rokdaum_proved_g711_decode((uint32_t)law, codes, count, samples, count) : ROKDAUM_NULL;
}

/* ---- Dialled digits ---- */

enum { NO_DIGIT = -1, KEYS = sizeof ROKDAUM_DTMF_KEYS - 1 };

/* One more, where that is still told apart from `most`. */
static uint32_t counted_to(uint32_t most, uint32_t so_far)
{
    return so_far < most ? so_far + 1 : most;
}

/* Whether a digit begins with the frame that has this code. */
static bool begins(rokdaum_digits *digits, int16_t code)
{
    digits->run = counted_to(digits->frames_on, code == digits->last ? digits->run : 0);
    digits->last = code;
    digits->away = code == digits->held ? 0 : counted_to(digits->frames_off, digits->away);
    if (digits->away >= digits->frames_off)
        digits->held = NO_DIGIT;
    if (code == NO_DIGIT || code == digits->held || digits->run < digits->frames_on)
        return false;
    digits->held = code;
    digits->away = 0;
    return true;
}

rokdaum_code rokdaum_dialled(rokdaum_digits *digits, const int16_t *codes, size_t count, char *dialled, size_t room, size_t *given)
{
    if (!digits || (!codes && count) || (!dialled && room) || !given)
        return ROKDAUM_NULL;
    if (room < count)
        return ROKDAUM_BAD_LENGTH;
    if (!digits->frames_on || !digits->frames_off)
        return ROKDAUM_PARAMS;
    for (size_t k = 0; k < count; k++)
        if (codes[k] < NO_DIGIT || codes[k] >= KEYS)
            return ROKDAUM_PARAMS;
    size_t found = 0;
    for (size_t k = 0; k < count; k++)
        if (begins(digits, codes[k]))
            dialled[found++] = ROKDAUM_DTMF_KEYS[codes[k]];
    *given = found;
    return ROKDAUM_OK;
}
