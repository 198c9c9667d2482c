/* SPDX-License-Identifier: Apache-2.0
 * `-M virt -bios none` of qemu-system-riscv64. With -icount shift=0 minstret counts instructions. */
#include "board.h"

const unsigned board_step = 1;

uint64_t board_count(void)
{
    uint64_t instructions;
    __asm__ volatile("csrr %0, minstret" : "=r"(instructions)::"memory");
    return instructions;
}

/* The global pointer, the stack, the units for floats and vectors (FS and VS of mstatus), and zeros in .bss. */
__asm__(".section .start,\"ax\"\n"
        ".global _start\n"
        "_start:\n"
        ".option push\n"
        ".option norelax\n"
        "la gp, __global_pointer$\n"
        ".option pop\n"
        "la sp, stack_top\n"
        "li t0, 0x6600\n"
        "csrs mstatus, t0\n"
        "la t0, bss_begin\n"
        "la t1, bss_end\n"
        "1: bgeu t0, t1, 2f\n"
        "sd zero, 0(t0)\n"
        "addi t0, t0, 8\n"
        "j 1b\n"
        "2: call main\n"
        "3: j 3b\n"
        ".text\n");
