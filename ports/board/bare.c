/* SPDX-License-Identifier: Apache-2.0
 * What the emulated machines share: text and the end by semihosting, and the pattern in the stack, which the linker script places. */
#include "board.h"
#include "semihost.h"

extern unsigned char stack_low[];
enum { PATTERN = 0xa5, FRAME = 128 };

void board_put(const char *text)
{
    semihost(SYS_WRITE0, text);
}

_Noreturn void board_leave(int status)
{
    semihost_exit(status);
}

static unsigned char *filled_to;

__attribute__((noinline)) void board_fill_stack(void)
{
    unsigned char *here = __builtin_frame_address(0);
    filled_to = here - FRAME; /* this function's own frame stays */
    for (volatile unsigned char *at = stack_low; at < filled_to; at++)
        *at = PATTERN;
}

__attribute__((noinline)) size_t board_stack_used(void)
{
    unsigned char *here = __builtin_frame_address(0);
    volatile unsigned char *at = stack_low;
    while (at < filled_to && *at == PATTERN)
        at++;
    return (size_t)(here - at);
}
