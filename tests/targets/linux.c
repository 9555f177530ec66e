/* Linux from below: the program's first instructions and the system's calls, in each processor's own words. */
#include "platform.h"

#if defined(__x86_64__)
enum { SYS_READ = 0, SYS_WRITE = 1, SYS_EXIT = 60 };
#define START "leaq stack+131072(%rip), %rsp\ncall begin"
#define ASK "syscall"
#define NUMBER "rax"
#define A "rdi"
#define B "rsi"
#define C "rdx"
#define ANSWER number
#define CHANGED "rcx", "r11", "memory"
#elif defined(__aarch64__)
enum { SYS_READ = 63, SYS_WRITE = 64, SYS_EXIT = 93 };
#define START "adrp x0, stack+131072\nadd x0, x0, :lo12:stack+131072\nmov sp, x0\nbl begin"
#define ASK "svc 0"
#define NUMBER "x8"
#define A "x0"
#define B "x1"
#define C "x2"
#elif defined(__arm__)
enum { SYS_READ = 3, SYS_WRITE = 4, SYS_EXIT = 1 };
#define START "ldr r0, =stack+131072\nmov sp, r0\nbl begin\n.pool"
#define ASK "svc 0"
#define NUMBER "r7"
#define A "r0"
#define B "r1"
#define C "r2"
#elif defined(__riscv)
enum { SYS_READ = 63, SYS_WRITE = 64, SYS_EXIT = 93 };
#define START "la sp, stack+131072\ncall begin"
#define ASK "ecall"
#define NUMBER "a7"
#define A "a0"
#define B "a1"
#define C "a2"
#endif

/* On most the first word's place has the answer. */
#ifndef ANSWER
#define ANSWER a
#define CHANGED "memory"
#endif

_Static_assert(STACK == 131072, "the first instructions have the stack's size as a number");
__asm__(".globl _start\n_start:\n" START "\n");

static long ask(long which, long first, long second, long third)
{
    register long number __asm__(NUMBER) = which;
    register long a __asm__(A) = first;
    register long b __asm__(B) = second;
    register long c __asm__(C) = third;
    __asm__ volatile(ASK : "+r"(number), "+r"(a) : "r"(b), "r"(c) : CHANGED);
    return ANSWER;
}

long system_read(void *to, uint32_t n)
{
    return ask(SYS_READ, 0, (long)to, (long)n);
}

long system_write(int file, const void *from, uint32_t n)
{
    return ask(SYS_WRITE, file, (long)from, (long)n);
}

void system_end(int status)
{
    for (;;)
        ask(SYS_EXIT, status, 0, 0);
}
