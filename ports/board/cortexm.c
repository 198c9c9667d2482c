/* SPDX-License-Identifier: Apache-2.0
 * mps2-an386 (Cortex-M4) and mps3-an547 (Cortex-M55) of qemu-system-arm. SysTick runs with the processor's clock: at 25 MHz on the first
 * and at 32 MHz on the second, where TICK_NUMERATOR / TICK_DENOMINATOR is 125 / 4. With -icount shift=0 an instruction takes a nanosecond. */
#include "board.h"
#include "semihost.h"

#ifndef TICK_NUMERATOR
#define TICK_NUMERATOR 40
#define TICK_DENOMINATOR 1
#endif
#define REGISTER(at) (*(volatile uint32_t *)(at))
#define SYST_CSR REGISTER(0xe000e010)
#define SYST_RVR REGISTER(0xe000e014)
#define SYST_CVR REGISTER(0xe000e018)
#define CPACR REGISTER(0xe000ed88)
enum { SYST_BITS = 0xffffff, SYST_ON = 5, FLOATS = 0xf << 20, STATUS_OF_A_FAULT = 99 };

const unsigned board_step = (TICK_NUMERATOR + TICK_DENOMINATOR - 1) / TICK_DENOMINATOR;

/* SysTick counts down, and begins anew after 24 bits: it is to be asked at least so often. */
uint64_t board_count(void)
{
    static uint32_t last;
    static uint64_t ticks;
    uint32_t now = SYST_CVR;
    ticks += (last - now) & SYST_BITS;
    last = now;
    return ticks * TICK_NUMERATOR / TICK_DENOMINATOR;
}

extern int main(void);
extern unsigned char bss_begin[], bss_end[], data_begin[], data_end[], data_from[], stack_top[];

/* The memory that C takes as given, the unit for floats and vectors, and the counter. */
_Noreturn void reset(void);
_Noreturn void reset(void)
{
    for (volatile unsigned char *at = bss_begin; at < bss_end; at++)
        *at = 0;
    for (volatile unsigned char *at = data_begin, *from = data_from; at < data_end;)
        *at++ = *from++;
    CPACR |= FLOATS;
    __asm__ volatile("dsb\n\tisb");
    SYST_RVR = SYST_BITS;
    SYST_CVR = 0;
    SYST_CSR = SYST_ON;
    board_leave(main());
}

_Noreturn static void fault(void)
{
    board_put("FAULT\n");
    board_leave(STATUS_OF_A_FAULT);
}

__attribute__((section(".vectors"), used)) static const void *const vectors[16] = {stack_top, reset, fault, fault, fault, fault, fault};
