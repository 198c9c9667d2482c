/* SPDX-License-Identifier: Apache-2.0
 * What a proved program asks of a system, on a Cortex-M board without one: files by semihosting, memory from newlib's malloc, and the words
 * of the emulator's command line. It is for modules that to32.py rewrote: lengths and results have 64 bits.
 *
 * It is trusted: no proof covers it. An output is opened as it is and emptied by ftruncate, as the program asks; two paths are one file only if
 * they are spelled alike; nothing is locked. With the word --count-instructions before the others it tells, when the program ends, the
 * instructions in steps of 40 (-icount shift=0), the bytes of stack and the bytes of heap. */
#include "semihost.h"
#include <stdlib.h>
#include <string.h>

/* Numbers of Linux, which the program was proved with. */
enum { ACCESS = 3, CREATE = 0100, EXCLUSIVE = 0200 };
enum { NO_FILE = 2, BAD_DESCRIPTOR = 9, EXISTS = 17, INVALID = 22, TOO_MANY_FILES = 24, TOO_SMALL = 34 };
/* Modes of SYS_OPEN: "rb", "r+b", "wb". */
enum { READS = 1, READS_AND_WRITES = 3, WRITES = 5 };

static int last_error;

int rattle_errno(void)
{
    return last_error;
}

void rattle_set_errno(int error)
{
    last_error = error;
}

static int failed(int error)
{
    last_error = error;
    return -1;
}

/* ---- Memory ---- */

extern unsigned char heap_low[], heap_top[];

/* What newlib's malloc asks for. */
void *_sbrk(intptr_t more)
{
    static unsigned char *at = heap_low;
    if (more > heap_top - at)
        return (void *)-1;
    at += more;
    return at - more;
}

static char nowhere[16];

/* A flag and a pointer, in 64 bits each. */
static void answer(uint64_t *to, void *at)
{
    to[0] = at != 0;
    to[1] = (uintptr_t)(at ? at : nowhere);
}

void rokdaum_rattle_alloc(uint64_t *to, uint64_t size, uint64_t align)
{
    (void)align; /* at most 8, as malloc aligns */
    answer(to, size <= INT32_MAX ? malloc((size_t)size) : 0);
}

void rokdaum_rattle_realloc(uint64_t *to, void *memory, uint64_t kept, uint64_t size, uint64_t align)
{
    (void)kept, (void)align;
    answer(to, size <= INT32_MAX ? realloc(memory, (size_t)size) : 0);
}

void rattle_dealloc(void *memory)
{
    free(memory);
}

/* ---- Words of the command line ---- */

enum { WORDS = 64, LINE = 4096 };
static char line[LINE], *words[WORDS];
static uint64_t word_count;

uint64_t rattle_arg_count(void)
{
    return word_count;
}

/* The length of a word, which is put at the start of a buffer; -1 if there is none, -2 if it doesn't fit. */
int64_t rattle_arg(uint64_t i, char *buffer, uint64_t room)
{
    if (i >= word_count)
        return -1;
    size_t length = strlen(words[i]);
    memcpy(buffer, words[i], length < room ? length : (size_t)room);
    return length <= room ? (int64_t)length : -2;
}

/* There is no environment. */
int64_t rattle_env(const char *name, char *buffer, uint64_t room)
{
    (void)name, (void)buffer, (void)room;
    return -1;
}

int64_t rattle_env_at(uint64_t i, char *buffer, uint64_t room)
{
    (void)i, (void)buffer, (void)room;
    return -1;
}

/* ---- Files ---- */

enum { FILES = 48, NAMES = 48, PATH = 512, CLOSED = -1, FIRST_FILE = 3 };
static struct {
    long handle;
    int name;
} files[FILES];
static char names[NAMES][PATH];
static int name_count;

/* The number of a path, the same for the same spelling, or -1 if there are too many or it is too long. */
static int name_of(const char *path)
{
    for (int k = 0; k < name_count; k++)
        if (!strcmp(names[k], path))
            return k;
    if (name_count == NAMES || strlen(path) >= PATH)
        return -1;
    strcpy(names[name_count], path);
    return name_count++;
}

static long host_open(const char *path, int mode)
{
    uintptr_t block[3] = {(uintptr_t)path, (uintptr_t)mode, strlen(path)};
    return semihost(SYS_OPEN, block);
}

static void host_close(long handle)
{
    uintptr_t block[1] = {(uintptr_t)handle};
    semihost(SYS_CLOSE, block);
}

static int is_open(int fd)
{
    return fd >= 0 && fd < FILES && files[fd].handle != CLOSED;
}

int open(const char *path, int flags, ...)
{
    int fd = FIRST_FILE, name = name_of(path), is_new = 0;
    while (fd < FILES && is_open(fd))
        fd++;
    if (fd == FILES || name < 0)
        return failed(TOO_MANY_FILES);
    long handle = host_open(path, flags & ACCESS ? READS_AND_WRITES : READS);
    if (handle < 0 && flags & CREATE) {
        handle = host_open(path, WRITES);
        is_new = 1;
    }
    if (handle < 0)
        return failed(NO_FILE);
    if (flags & CREATE && flags & EXCLUSIVE && !is_new) {
        host_close(handle);
        return failed(EXISTS);
    }
    files[fd].handle = handle;
    files[fd].name = name;
    return fd;
}

int close(int fd)
{
    if (!is_open(fd))
        return failed(BAD_DESCRIPTOR);
    host_close(files[fd].handle);
    files[fd].handle = CLOSED;
    return 0;
}

/* SYS_READ and SYS_WRITE return how many bytes were not moved. */
static int64_t moved(long what, int fd, const void *buffer, uint64_t room)
{
    if (!is_open(fd))
        return failed(BAD_DESCRIPTOR);
    uintptr_t block[3] = {(uintptr_t)files[fd].handle, (uintptr_t)buffer, (uintptr_t)room};
    return (int64_t)room - semihost(what, block);
}

int64_t read(int fd, void *buffer, uint64_t room)
{
    return moved(SYS_READ, fd, buffer, room);
}

int64_t write(int fd, const void *buffer, uint64_t room)
{
    return moved(SYS_WRITE, fd, buffer, room);
}

/* By this name a program says, before anything else, that it can't run on its processor. */
int64_t __write(int fd, const void *buffer, uint64_t room)
{
    return write(fd, buffer, room);
}

/* A file can only be emptied. */
int ftruncate(int fd, int64_t length)
{
    if (!is_open(fd) || length != 0)
        return failed(INVALID);
    host_close(files[fd].handle);
    files[fd].handle = host_open(names[files[fd].name], WRITES);
    return files[fd].handle == CLOSED ? failed(INVALID) : 0;
}

int unlink(const char *path)
{
    uintptr_t block[2] = {(uintptr_t)path, strlen(path)};
    return semihost(SYS_REMOVE, block) ? failed(NO_FILE) : 0;
}

int fchmod(int fd, int mode)
{
    (void)fd, (void)mode;
    return 0;
}

int fsync(int fd)
{
    (void)fd;
    return 0;
}

int fdatasync(int fd)
{
    (void)fd;
    return 0;
}

int flock(int fd, int how)
{
    (void)fd, (void)how;
    return 0;
}

/* Places in Linux's struct statx, and what it says of a file and of a pipe. */
enum { STATX = 256, AT_MASK = 0, AT_BLOCK = 4, AT_LINKS = 16, AT_MODE = 28, AT_NODE = 32, AT_SIZE = 40 };
enum { BASIC = 0x17ff, BLOCK = 4096, REGULAR = 0100644, PIPE = 0010600, FIRST_NODE = 100 };

static void tell(unsigned char *told, int name, long length)
{
    int is_device = !strncmp(names[name], "/dev/", 5);
    const uint32_t known = BASIC, block = BLOCK, links = 1;
    const uint16_t mode = is_device ? PIPE : REGULAR;
    const uint64_t node = (uint64_t)name + FIRST_NODE, size = is_device || length < 0 ? 0 : (uint64_t)length;
    memset(told, 0, STATX);
    memcpy(told + AT_MASK, &known, sizeof known);
    memcpy(told + AT_BLOCK, &block, sizeof block);
    memcpy(told + AT_LINKS, &links, sizeof links);
    memcpy(told + AT_MODE, &mode, sizeof mode);
    memcpy(told + AT_NODE, &node, sizeof node);
    memcpy(told + AT_SIZE, &size, sizeof size);
}

int statx(int fd, const char *path, int flags, int mask, unsigned char *told)
{
    (void)flags, (void)mask;
    int name = *path ? name_of(path) : is_open(fd) ? files[fd].name : -1;
    if (name < 0)
        return failed(*path ? TOO_MANY_FILES : BAD_DESCRIPTOR);
    long handle = *path ? host_open(path, READS) : files[fd].handle;
    if (handle < 0)
        return failed(NO_FILE);
    uintptr_t block[1] = {(uintptr_t)handle};
    tell(told, name, strncmp(names[name], "/dev/", 5) ? semihost(SYS_FLEN, block) : 0);
    if (*path)
        host_close(handle);
    return 0;
}

/* ---- The rest of the C library that the program calls ---- */

int __xpg_strerror_r(int error, char *buffer, uint64_t room)
{
    static const char text[] = "error";
    (void)error;
    if (room < sizeof text)
        return TOO_SMALL;
    memcpy(buffer, text, sizeof text);
    return 0;
}

int64_t __sysv_signal(int number, int64_t action)
{
    (void)number, (void)action;
    return 0;
}

/* A program for x86-64 asks whether the processor has what it was compiled for; compiled for another, it has. */
const void *__x86_get_cpuid_feature_leaf(unsigned leaf)
{
    static const uint32_t all[8] = {~0u, ~0u, ~0u, ~0u, ~0u, ~0u, ~0u, ~0u};
    (void)leaf;
    return all;
}

/* ---- Start ---- */

#define REGISTER(at) (*(volatile uint32_t *)(at))
#define CPACR REGISTER(0xe000ed88)
/* The first timer of the boards, which counts down at 25 MHz. */
#define TIMER_CONTROL REGISTER(0x40000000)
#define TIMER_VALUE REGISTER(0x40000004)
#define TIMER_RELOAD REGISTER(0x40000008)
enum { FLOATS = 0xf << 20, INSTRUCTIONS_A_TICK = 40, PATTERN = 0xa5, FRAME = 256, STATUS_OF_A_FAULT = 99 };

extern int main(void);
extern unsigned char bss_begin[], bss_end[], data_begin[], data_end[], data_from[], stack_low[], stack_top[];

static void say(const char *before, uint64_t n)
{
    char text[24], *at = text + sizeof text - 1;
    *at = '\n';
    char *end = at + 1;
    do {
        *--at = (char)('0' + n % 10);
        n /= 10;
    } while (n);
    write(2, before, strlen(before));
    write(2, at, (uint64_t)(end - at));
}

/* The three descriptors, and the words of the command line; whether instructions are to be counted. */
static int prepare(void)
{
    for (int fd = 0; fd < FILES; fd++)
        files[fd].handle = CLOSED;
    static const char *const standard[FIRST_FILE] = {0, "/dev/stdout", "/dev/stderr"};
    for (int fd = 1; fd < FIRST_FILE; fd++) {
        files[fd].handle = host_open(standard[fd], WRITES);
        files[fd].name = name_of(standard[fd]);
    }
    uintptr_t block[2] = {(uintptr_t)line, sizeof line - 1};
    semihost(SYS_GET_CMDLINE, block);
    int is_counted = 0;
    for (char *at = strtok(line, " "); at && word_count < WORDS; at = strtok(0, " "))
        if (word_count == 1 && !is_counted && !strcmp(at, "--count-instructions"))
            is_counted = 1;
        else
            words[word_count++] = at;
    return is_counted;
}

static int counted(void)
{
    unsigned char *here = __builtin_frame_address(0);
    for (volatile unsigned char *at = stack_low; at < here - FRAME; at++)
        *at = PATTERN;
    TIMER_RELOAD = UINT32_MAX;
    TIMER_VALUE = UINT32_MAX;
    TIMER_CONTROL = 1;
    uint32_t before = TIMER_VALUE;
    int status = main();
    uint32_t after = TIMER_VALUE;
    volatile unsigned char *at = stack_low;
    while (*at == PATTERN)
        at++;
    say("instructions ", (uint64_t)(before - after) * INSTRUCTIONS_A_TICK);
    say("stack ", (uint64_t)(here - at));
    say("heap ", (uint64_t)((unsigned char *)_sbrk(0) - heap_low));
    return status;
}

_Noreturn void reset(void);
_Noreturn void reset(void)
{
    for (volatile unsigned char *at = bss_begin; at < bss_end; at++)
        *at = 0;
    for (volatile unsigned char *at = data_begin, *from = data_from; at < data_end;)
        *at++ = *from++;
    CPACR |= FLOATS;
    __asm__ volatile("dsb\n\tisb");
    semihost_exit(prepare() ? counted() : main());
}

_Noreturn static void fault(void)
{
    semihost(SYS_WRITE0, "FAULT\n");
    semihost_exit(STATUS_OF_A_FAULT);
}

__attribute__((section(".vectors"), used)) static const void *const vectors[16] = {stack_top, reset, fault, fault, fault, fault, fault};
