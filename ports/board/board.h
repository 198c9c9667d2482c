/* SPDX-License-Identifier: Apache-2.0
 * What a machine without an operating system gives to a program: text, an end, a count of instructions, and how much stack was used. */
#ifndef BOARD_H
#define BOARD_H
#include <stddef.h>
#include <stdint.h>

void board_put(const char *text);
_Noreturn void board_leave(int status);

/* Instructions since some moment, as the emulator counts them, in steps of board_step; board_step is 0 where nothing is counted. */
extern const unsigned board_step;
uint64_t board_count(void);

/* Fills the free stack with a pattern; and the bytes of stack that were written since, counted from the caller's frame, or 0 where that is
 * not known. */
void board_fill_stack(void);
size_t board_stack_used(void);
#endif
