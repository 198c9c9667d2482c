/* SPDX-License-Identifier: Apache-2.0
 * `-M virt` of qemu-system-aarch64. The counter runs at 62.5 MHz, and with -icount shift=0 an instruction takes a nanosecond. */
#include "board.h"

enum { INSTRUCTIONS_A_TICK = 16 };
const unsigned board_step = INSTRUCTIONS_A_TICK;

uint64_t board_count(void)
{
    uint64_t ticks;
    __asm__ volatile("isb\n\tmrs %0, cntvct_el0" : "=r"(ticks)::"memory");
    return ticks * INSTRUCTIONS_A_TICK;
}

/* The stack, the unit for floats and vectors, and zeros in .bss. */
__asm__(".section .start,\"ax\"\n"
        ".global _start\n"
        "_start:\n"
        "ldr x0, =stack_top\n"
        "mov sp, x0\n"
        "mrs x0, cpacr_el1\n"
        "orr x0, x0, #(3 << 20)\n"
        "msr cpacr_el1, x0\n"
        "isb\n"
        "ldr x0, =bss_begin\n"
        "ldr x1, =bss_end\n"
        "1: cmp x0, x1\n"
        "b.hs 2f\n"
        "str xzr, [x0], #8\n"
        "b 1b\n"
        "2: bl main\n"
        "b .\n"
        ".text\n");
