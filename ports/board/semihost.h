/* SPDX-License-Identifier: Apache-2.0
 * Semihosting, by which a program asks the emulator, or a debugger, for files, text and an end. The same requests have the same numbers on
 * all processors; each processor has an instruction of its own for them. */
#ifndef SEMIHOST_H
#define SEMIHOST_H
#include <stdint.h>

enum {
    SYS_OPEN = 0x01,
    SYS_CLOSE = 0x02,
    SYS_WRITE0 = 0x04,
    SYS_WRITE = 0x05,
    SYS_READ = 0x06,
    SYS_FLEN = 0x0c,
    SYS_REMOVE = 0x0e,
    SYS_GET_CMDLINE = 0x15,
    SYS_EXIT_EXTENDED = 0x20,
    STOPPED_APPLICATION_EXIT = 0x20026
};

static inline long semihost(long what, const void *with)
{
#if defined(__aarch64__)
    register long x0 __asm__("x0") = what;
    register const void *x1 __asm__("x1") = with;
    __asm__ volatile("hlt #0xf000" : "+r"(x0) : "r"(x1) : "memory");
    return x0;
#elif defined(__riscv)
    register long a0 __asm__("a0") = what;
    register const void *a1 __asm__("a1") = with;
    __asm__ volatile(".option push\n.option norvc\n.option norelax\nslli x0, x0, 0x1f\nebreak\nsrai x0, x0, 7\n.option pop" : "+r"(a0) : "r"(a1) : "memory");
    return a0;
#elif defined(__arm__)
    register long r0 __asm__("r0") = what;
    register const void *r1 __asm__("r1") = with;
    __asm__ volatile("bkpt #0xab" : "+r"(r0) : "r"(r1) : "memory");
    return r0;
#else
#error "no instruction is known for semihosting on this processor"
#endif
}

/* Ends the program with a status. */
_Noreturn static inline void semihost_exit(int status)
{
    uintptr_t block[2] = {STOPPED_APPLICATION_EXIT, (uintptr_t)status};
    semihost(SYS_EXIT_EXTENDED, block);
    for (;;)
        ;
}
#endif
