/* A Cortex-M board with no system: its first words of memory, and the debugger's calls (Arm's semihosting) for input and output. */
#include "platform.h"

/* Where the stack begins, and the first instruction. */
__attribute__((section(".vectors"), used)) static const void *const vectors[2] = {stack + STACK, (const void *)begin};

enum { OPEN = 1, WRITE = 5, READ = 6, EXIT = 0x20 };
enum { APPLICATION_EXIT = 0x20026 };

static long ask(long number, const void *words)
{
    register long r0 __asm__("r0") = number;
    register const void *r1 __asm__("r1") = words;
    __asm__ volatile("bkpt 0xab" : "+r"(r0) : "r"(r1) : "memory");
    return r0;
}

/* The console, opened once to read, to write, and to append (which is standard error). */
static long console(int file)
{
    static long opened[3];
    if (opened[file] == 0) {
        const uintptr_t words[3] = {(uintptr_t)":tt", (uintptr_t)(4 * file), 3};
        opened[file] = ask(OPEN, words);
    }
    return opened[file];
}

/* It answers how many bytes were not done. */
static long transfer(long number, int file, uintptr_t at, uint32_t n)
{
    const uintptr_t words[3] = {(uintptr_t)console(file), at, n};
    return (long)n - ask(number, words);
}

long system_read(void *to, uint32_t n)
{
    return transfer(READ, 0, (uintptr_t)to, n);
}

long system_write(int file, const void *from, uint32_t n)
{
    return transfer(WRITE, file, (uintptr_t)from, n);
}

void system_end(int status)
{
    const uintptr_t words[2] = {APPLICATION_EXIT, (uintptr_t)status};
    for (;;)
        ask(EXIT, words);
}
