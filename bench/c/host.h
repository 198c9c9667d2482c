/* SPDX-License-Identifier: Apache-2.0
 * The host: instances in three spaces of words, groups that share scratch memory, and channels of instances. docs/SCRIPTS.md says
 * what each command does; each function here is one, with its numbers as the script has them. */
#ifndef HOST_H
#define HOST_H
#include "kernels.h"

enum { DARAM, SARAM, EXTERNAL, SPACES };
enum kind { FIR, DECIM, BIQUAD, TONE, G711, KINDS };
enum verb { SET, RESET, GET };
enum { INSTANCES = 64, GROUPS = 8, CHANNELS = 16, MEMBERS_MAX = 8, FEED_MAX = 1024, PARAMETERS_MAX = 72 };
enum { BLOCKS_MAX = INSTANCES * 3 + GROUPS, NO_POISON = -1 };

/* What a command answers, by the numbers of refusals. */
enum answer { OK, LONG, SYNTAX, RANGE, TAKEN, MISSING, PARAMS, ROOM, BUSY, COMMAND, SHORT };

/* A block of a space, as `map` shows it. `owner` is an instance, or INSTANCES + a group. */
struct shown { int owner, record, place, size; };

void open_host(const int sizes[SPACES], int poison, int channels);
enum answer create(int instance, enum kind kind, int group, const int *parameters, int count);
enum answer delete(int instance);

/* The words of GET go to `got`, which has PARAMETERS_MAX, and their number to `*count`. */
enum answer control(int instance, enum verb verb, const int *words, int n, word16 *got, int *count);

enum answer chain(int channel, const int *members, int n);
enum answer unchain(int channel);
enum answer is_chained(int channel);

/* Takes n samples through the members of a channel that is chained. What comes out stands at the answer, `*made` samples. */
const word16 *pass(int channel, const word16 *samples, int n, int *made);

/* Moves at most so many blocks to their packed places, and answers how many. */
int compact(int space, int most);

/* Deactivates a group's member, and answers whether there was one. */
int release(int group);

/* The active member of a group or -1, and how often a member was activated. */
int active_member(int group, unsigned *activations);

/* The blocks in the order of places. */
int map(int space, struct shown blocks[BLOCKS_MAX]);
#endif
