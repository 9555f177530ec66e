/* What the server has of its platform, there being no C library: input, output, an end, and a stack that is looked at. */
#ifndef PLATFORM_H
#define PLATFORM_H

#include <stddef.h>
#include <stdint.h>

/* The system: linux.c, or board.c where there is none. Each gives the number of bytes done, at most n, and 0 or less at the end. */
long system_read(void *to, uint32_t n);
long system_write(int file, const void *from, uint32_t n);
_Noreturn void system_end(int status);

/* The first instructions set the stack and go here; it marks the stack and serves. */
enum { STACK = 1 << 17 };
extern uint8_t stack[STACK];
_Noreturn void begin(void);
void serve(void);

/* All n bytes of standard input, or 0 at its end. */
int get(void *to, uint32_t n);

/* All n bytes to standard output. */
void put(const void *from, uint32_t n);

/* Says why on standard error, and ends with status 1. */
_Noreturn void stop(const char *why);

/* Says on standard error how many bytes of the stack below that address were ever used. */
void say_stack(uintptr_t top);

#endif
