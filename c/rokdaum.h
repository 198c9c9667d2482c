/* SPDX-License-Identifier: Apache-2.0
 *
 * Rokdaum: fixed-point signal algorithms in the style of XDAIS (IALG), hosted in three memory spaces with shared scratch memory.
 *
 * docs/C.md describes the library as a whole, what is proved of it, and what a caller can break. In short:
 *
 * HANDLES. A `rokdaum` is the caller's own struct. Begin with ROKDAUM_CLOSED, pass its address to these functions alone, never copy
 * it, and close it once for each time it was opened. All other pointers are lent for the call: the library keeps none of them but the
 * allocator's.
 *
 * ANSWERS. A call answers ROKDAUM_OK, or why it did nothing. It has then written nothing and changed nothing, but for what its
 * comment says.
 *
 * POINTERS. A null pointer is answered with ROKDAUM_NULL. A pointer to items may be null where their number is 0. What a call writes
 * overlaps nothing else that it is given.
 *
 * MEMORY. rokdaum_open allocates, and rokdaum_close frees. No other call does either.
 *
 * THREADS. One call at a time for each handle. Threads that hand a handle on order their calls, by a lock, a queue or a join: a handle has
 * no thread of its own. Handles are independent of each other. Call nothing here from a signal handler. */
#ifndef ROKDAUM_H
#define ROKDAUM_H

#include <stddef.h>
#include <stdint.h>

#ifdef __cplusplus
extern "C" {
#endif

#define ROKDAUM_VERSION "1.0.0"

typedef enum rokdaum_code {
    ROKDAUM_OK = 0,

    /* The host refuses, with the numbers that dsp_console's replies have. */
    ROKDAUM_RANGE = 3,   /* the number of an instance, a group or a channel is too large */
    ROKDAUM_TAKEN = 4,   /* the instance lives already, or the channel has members already */
    ROKDAUM_MISSING = 5, /* the instance doesn't live, or the channel has no members */
    ROKDAUM_PARAMS = 6,  /* the algorithm doesn't take these parameters */
    ROKDAUM_ROOM = 7,    /* a memory space has no free place */
    ROKDAUM_BUSY = 8,    /* the instance is a member of a channel, or is named twice */
    ROKDAUM_COMMAND = 9, /* the algorithm doesn't take this control command */

    /* The interface refuses. */
    ROKDAUM_BAD_SIZE = 16,   /* a space isn't 0 to 65,536 words, a multiple of 4; or the channels aren't 1 to 16 */
    ROKDAUM_NO_MEMORY = 17,  /* the allocator refuses */
    ROKDAUM_NOT_OPEN = 18,   /* the handle isn't open */
    ROKDAUM_OPEN = 19,       /* the handle is open already */
    ROKDAUM_BAD_LENGTH = 20, /* too few or too many items, or too little room */
    ROKDAUM_BAD_KIND = 21,   /* no algorithm has this number */
    ROKDAUM_BAD_SPACE = 22,  /* no memory space has this number */
    ROKDAUM_BAD_LAW = 23,    /* no companding law has this number */
    ROKDAUM_NULL = 24        /* a pointer is null */
} rokdaum_code;

/* The algorithms, each with its parameters. docs/SCRIPTS.md explains them, and examples/dtmf_line the detector. */
typedef enum rokdaum_kind {
    ROKDAUM_FIR = 0,    /* FIR filter: 1 to 64 coefficients in Q15 */
    ROKDAUM_DECIM = 1,  /* decimator: a factor of 1 to 16, then 1 to 64 coefficients in Q15 */
    ROKDAUM_BIQUAD = 2, /* second-order section: b0 b1 b2 a1 a2 in Q14 */
    ROKDAUM_TONE = 3,   /* Goertzel tone detector: k in Q15, a frame of 1 to 1,024 samples, a shift of 0 to 15 */
    ROKDAUM_G711 = 4,   /* G.711: the law (0 A, 1 mu), then 0 to encode or 1 to decode */
    ROKDAUM_GAIN = 5,   /* gain: a factor in Q12, which `set` changes */
    ROKDAUM_LEVEL = 6,  /* energy of each frame: a frame of 1 to 1,024 samples, a shift of 0 to 15 */
    ROKDAUM_DTMF = 7,   /* dialled digits: a frame of 1 to 127 samples, a shift of 0 to 14, the threshold, the two limits of twist, the
                           dominance and the share; ROKDAUM_DTMF_A and ROKDAUM_DTMF_B are recommended */
    ROKDAUM_ECHO = 8,   /* line echo canceller over pairs, the far end's sample first: 1 to 256 coefficients, the step in Q15, the share in
                           Q15 of the far end from which on the near end talks, and the pairs for which it then doesn't learn */
    ROKDAUM_ADPCM = 9,  /* G.726: 16, 24, 32 or 40 kbit/s, then 0 to encode or 1 to decode */
    ROKDAUM_SIGNAL = 10, /* tones with a cadence: k1 s1 k2 s2, the samples on and off, the number of cycles or 0 */
    ROKDAUM_ACTIVITY = 11 /* voice activity, 1 or 0 for each frame: a frame of 1 to 1,024 samples, then 0 to 15 each the shift of squares, the
                             margin over the floor and its rise, both as powers of 2; the least floor, and the frames of the hangover */
} rokdaum_kind;

/* Parameters of a detector of digits, at 8,000 samples a second. */
#define ROKDAUM_DTMF_A {102, 7, 91, 2920, 7336, 5827, 22938}
#define ROKDAUM_DTMF_B {92, 7, 82, 2920, 7336, 9235, 20316}

/* A detector gives one of these places for each frame, or -1 for a frame without a digit. */
#define ROKDAUM_DTMF_KEYS "123A456B789C*0#D"

/* What makes dialled digits of such codes, and what it remembers of a line: a digit counts once `frames_on` frames in a row have it, and
 * may count again once `frames_off` in a row haven't. Begin with the values that belong to the detector's, A or B; the four members
 * behind them are the library's own. */
typedef struct rokdaum_digits {
    uint32_t frames_on, frames_off; /* 1 or more */
    int32_t last, held;
    uint32_t run, away;
} rokdaum_digits;
#define ROKDAUM_DIGITS_A {2, 2, -1, -1, 0, 0}
#define ROKDAUM_DIGITS_B {3, 2, -1, -1, 0, 0}

typedef enum rokdaum_space { ROKDAUM_DARAM = 0, ROKDAUM_SARAM = 1, ROKDAUM_EXTERNAL = 2 } rokdaum_space;

typedef enum rokdaum_law { ROKDAUM_A_LAW = 0, ROKDAUM_MU_LAW = 1 } rokdaum_law;

enum {
    ROKDAUM_SPACE_WORDS = 65536,  /* the most words of a memory space */
    ROKDAUM_INSTANCES = 64,       /* instances have numbers from 0 to 63 */
    ROKDAUM_GROUPS = 8,           /* scratch groups, from 0 to 7 */
    ROKDAUM_CHANNELS = 16,        /* the most channels of a host */
    ROKDAUM_MEMBERS = 8,          /* the most instances of a channel */
    ROKDAUM_BLOCK_SAMPLES = 1024, /* the most samples of one rokdaum_feed */
    ROKDAUM_PARAMETER_WORDS = 72, /* the most words of parameters */
    ROKDAUM_COEFFICIENTS = 64,    /* the most coefficients of a FIR filter or a decimator */
    ROKDAUM_MAP_BLOCKS = 264      /* the most blocks of a memory space */
};

/* A length as the proved code takes it: size_t, or as many bits where addresses have 32. Only the proved entry points take it, which
 * programs do not call by name. */
#if UINTPTR_MAX > 0xffffffff
typedef size_t rokdaum_length;
#else
typedef uint64_t rokdaum_length;
#endif

/* Where rokdaum_open_with gets its memory. `allocate` returns `size` bytes aligned to `align`, a power of two up to 16, or a null
 * pointer; `release` frees what it returned. Both get `context`. */
typedef struct rokdaum_allocator {
    void *(*allocate)(void *context, size_t size, size_t align);
    void (*release)(void *context, void *memory);
    void *context;
} rokdaum_allocator;

/* A handle. Its members are the library's own. */
typedef struct rokdaum {
    struct {
        uint64_t mark;
        void *at;
    } machine;
    const rokdaum_allocator *allocator;
} rokdaum;
#define ROKDAUM_CLOSED {{0, 0}, 0}

/* What a host is opened with. ROKDAUM_OPTIONS has the values of dsp_console without options, and 16 channels. */
typedef struct rokdaum_options {
    uint32_t daram, saram, external; /* the words of each memory space: 0 to 65,536, a multiple of 4 */
    uint8_t channels;                /* 1 to 16 */
    uint8_t poisoned;                /* where it isn't 0, `poison` fills each new block, and scratch memory after a deactivation */
    int16_t poison;
} rokdaum_options;
#define ROKDAUM_OPTIONS {65536, 65536, 65536, 16, 0, 0}

/* A block of a memory space, in words of 16 bits. It is record `record` of instance `number`, or, where `scratch` isn't 0, the
 * scratch memory of group `number`. */
typedef struct rokdaum_block {
    uint32_t scratch;
    uint32_t number;
    uint32_t record;
    uint32_t place;
    uint32_t size;
    uint32_t align;
} rokdaum_block;

/* ---- The library ---- */

/* The version of the library: ROKDAUM_VERSION of the header that it was built with. */
const char *rokdaum_version(void);

/* What a code means, in a few words without a full stop. */
const char *rokdaum_error_text(rokdaum_code code);

/* ---- Hosts ---- */

/* Opens a host without instances. `allocator` may be null: malloc and free serve then. Otherwise it has to stay until the host is
 * closed. Refuses with ROKDAUM_OPEN, ROKDAUM_BAD_SIZE and ROKDAUM_NO_MEMORY; nothing stays allocated then. */
rokdaum_code rokdaum_open(rokdaum *host, const rokdaum_options *options);
rokdaum_code rokdaum_open_with(rokdaum *host, const rokdaum_options *options, const rokdaum_allocator *allocator);

/* Deletes every instance, in ascending number, frees all memory and closes the handle. */
rokdaum_code rokdaum_close(rokdaum *host);

/* ---- Instances ---- */

/* Creates an instance in a scratch group, with up to 72 words of parameters. Where the answer is ROKDAUM_ROOM, `*full` is the space
 * that has no room, unless `full` is null. Refuses with RANGE, TAKEN, PARAMS, ROOM, BAD_KIND and BAD_LENGTH. */
rokdaum_code rokdaum_create(rokdaum *host, uint8_t instance, rokdaum_kind kind, uint8_t group, const int16_t *parameters, size_t count,
                            rokdaum_space *full);

/* Deletes an instance, which must be a member of no channel. Refuses with RANGE, MISSING and BUSY. */
rokdaum_code rokdaum_delete(rokdaum *host, uint8_t instance);

/* The control commands. `set` puts up to 72 words into force; `reset` makes an instance forget its past samples; `get` writes the
 * words of its answer to `words`, which has room for 72, and their number to `*count`; what stands behind them then is undefined. They
 * refuse with RANGE, MISSING, COMMAND and BAD_LENGTH. */
rokdaum_code rokdaum_set(rokdaum *host, uint8_t instance, const int16_t *words, size_t count);
rokdaum_code rokdaum_reset(rokdaum *host, uint8_t instance);
rokdaum_code rokdaum_get(rokdaum *host, uint8_t instance, int16_t *words, size_t room, uint32_t *count);

/* ---- Channels ---- */

/* Gives a channel 1 to 8 members: instances that live, none of them in another channel. Refuses with RANGE, TAKEN, MISSING, BUSY and
 * BAD_LENGTH. */
rokdaum_code rokdaum_chain(rokdaum *host, uint8_t channel, const uint8_t *members, size_t count);

/* Takes the members from a channel. They live on. Refuses with RANGE and MISSING. */
rokdaum_code rokdaum_unchain(rokdaum *host, uint8_t channel);

/* Whether a channel has members: ROKDAUM_OK, or RANGE or MISSING, as a feed would be refused. */
rokdaum_code rokdaum_ready(rokdaum *host, uint8_t channel);

/* Passes a block of 1 to 1,024 samples through the members of a channel. What the last member gives is written to `out`, and its
 * number, which is never above `count`, to `*given`; what stands behind it is undefined. `out` has room for `count` samples. Refuses
 * with RANGE, MISSING and BAD_LENGTH. */
inline rokdaum_code rokdaum_feed(rokdaum *host, uint8_t channel, const int16_t *samples, size_t count, int16_t *out, size_t room, uint32_t *given);

/* The same for any number of samples, in blocks of 1,024. How samples are cut into blocks doesn't show in the output. */
rokdaum_code rokdaum_feed_all(rokdaum *host, uint8_t channel, const int16_t *samples, size_t count, int16_t *out, size_t room, size_t *given);

/* ---- Memory and scratch groups ---- */

/* Moves the first block of a space that can be moved down. `*moved` is 1 where one moved, and else 0. */
rokdaum_code rokdaum_step(rokdaum *host, rokdaum_space space, uint32_t *moved);

/* Steps until no block of the space moves. `*moved` is how many blocks moved. */
rokdaum_code rokdaum_compact(rokdaum *host, rokdaum_space space, uint32_t *moved);

/* How many words all moves of this host have copied. */
rokdaum_code rokdaum_copied(rokdaum *host, uint64_t *words);

/* The blocks of a space in ascending place. `blocks` has room for 264, and `*count` is how many there are; what stands behind them then is
 * undefined. */
rokdaum_code rokdaum_map(rokdaum *host, rokdaum_space space, rokdaum_block *blocks, size_t room, uint32_t *count);

/* Deactivates the active member of a scratch group. `*released` is 1 where there was one, and else 0. */
rokdaum_code rokdaum_release(rokdaum *host, uint8_t group, uint32_t *released);

/* `*active` is the active member of a group, or -1, and `*activations` how often one was activated. */
rokdaum_code rokdaum_stat(rokdaum *host, uint8_t group, int32_t *active, uint32_t *activations);

/* ---- Without a host: operators of ITU-T G.191, G.711, and dialled digits ---- */

/* The sum of a and b, saturated (`add`). */
int16_t rokdaum_add(int16_t a, int16_t b);

/* The doubled, saturated product of a and b is added to v, and the sum saturated (`L_mac`). */
int32_t rokdaum_l_mac(int32_t v, int16_t a, int16_t b);

/* `*quotient` is a / b in Q15, for 0 <= a <= b and b above 0 (`div_s`). Refuses other operands with ROKDAUM_PARAMS. */
rokdaum_code rokdaum_div_s(int16_t a, int16_t b, int16_t *quotient);

/* Over blocks of `count` samples: the sum of each two (`add`), their difference (`sub`), the product of each and a gain in Q15 (`mult`),
 * and each shifted by `shift` bits to the left, saturated (`shl`), or to the right (`shr`); a negative shift goes the other way. */
rokdaum_code rokdaum_add_block(const int16_t *a, const int16_t *b, int16_t *out, size_t count);
rokdaum_code rokdaum_sub_block(const int16_t *a, const int16_t *b, int16_t *out, size_t count);
rokdaum_code rokdaum_mult_block(int16_t gain, const int16_t *samples, int16_t *out, size_t count);
rokdaum_code rokdaum_shl_block(const int16_t *samples, int16_t shift, int16_t *out, size_t count);
rokdaum_code rokdaum_shr_block(const int16_t *samples, int16_t shift, int16_t *out, size_t count);

/* `*sum` is v with the doubled product of each two samples added to it, the first two first, saturated at each step (`L_mac`). */
rokdaum_code rokdaum_l_mac_block(int32_t v, const int16_t *a, const int16_t *b, size_t count, int32_t *sum);

/* A FIR filter over a block of up to 1,024 samples, without a host: 1 to 64 coefficients in Q15, that of the newest sample first.
 * `line` has the samples before the block, one fewer than there are coefficients, and then the block. Its length is at least 63 above
 * `count`; words after the block do not affect the output. Refuses with ROKDAUM_BAD_LENGTH. */
rokdaum_code rokdaum_fir(const int16_t *coefficients, size_t coefficient_count, const int16_t *line, size_t length, int16_t *out, size_t count);

/* A code for each sample, and a sample for each code. There are `count` of both. */
rokdaum_code rokdaum_g711_encode(rokdaum_law law, const int16_t *samples, uint8_t *codes, size_t count);
rokdaum_code rokdaum_g711_decode(rokdaum_law law, const uint8_t *codes, int16_t *samples, size_t count);

/* The digits that begin with the frames of these codes, which a detector gave one after the other: their keys are written to `dialled`,
 * without a 0 behind them, and how many they are, which is never above `count`, to `*given`. `dialled` has room for `count`. How codes are
 * cut into calls doesn't show in the digits. Refuses with BAD_LENGTH, and with PARAMS where a code isn't -1 to 15 or a number of frames
 * is 0. */
rokdaum_code rokdaum_dialled(rokdaum_digits *digits, const int16_t *codes, size_t count, char *dialled, size_t room, size_t *given);

/* ---- Inline ---- */

/* A feed of few samples takes less time than its tests for null pointers, so these stand here: a compiler that sees the pointers
 * leaves them out. The rest is proved. A library for callers that see no header has rokdaum_feed too. */
struct rokdaum_handle;
int32_t rokdaum_proved_feed(struct rokdaum_handle *handle, uint8_t channel, const int16_t *input, rokdaum_length input_len, int16_t *out, rokdaum_length out_len, uint32_t *count);
int32_t rokdaum_proved_feed_sample(struct rokdaum_handle *handle, uint8_t channel, int16_t sample, int16_t *out, uint32_t *count);

inline rokdaum_code rokdaum_feed(rokdaum *host, uint8_t channel, const int16_t *samples, size_t count, int16_t *out, size_t room, uint32_t *given)
{
    if (!host || (!samples && count) || (!out && room) || !given)
        return ROKDAUM_NULL;
    struct rokdaum_handle *handle = (struct rokdaum_handle *)(void *)&host->machine;
    if (count == 1 && room) /* one sample is passed by value */
        return (rokdaum_code)rokdaum_proved_feed_sample(handle, channel, *samples, out, given);
    return (rokdaum_code)rokdaum_proved_feed(handle, channel, samples, count, out, room, given);
}

#ifdef __cplusplus
}
#endif
#endif
