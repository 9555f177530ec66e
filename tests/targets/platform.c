#include "platform.h"

/* What is never used of the stack keeps its marks; its first frames stand above them, and so many bytes are always left. */
enum { MARK = 0xA5, FIRST = 1 << 10, LEFT = 1 << 10 };
_Alignas(16) uint8_t stack[STACK];

int get(void *to, uint32_t n)
{
    for (uint32_t done = 0; done < n;) {
        const long more = system_read((uint8_t *)to + done, n - done);
        if (more <= 0)
            return 0;
        done += (uint32_t)more;
    }
    return 1;
}

static void write_all(int file, const void *from, uint32_t n)
{
    for (uint32_t done = 0; done < n;) {
        const long more = system_write(file, (const uint8_t *)from + done, n - done);
        if (more <= 0)
            system_end(1);
        done += (uint32_t)more;
    }
}

void put(const void *from, uint32_t n)
{
    write_all(1, from, n);
}

static void say(const char *words)
{
    uint32_t n = 0;
    while (words[n] != 0)
        n++;
    write_all(2, words, n);
}

void stop(const char *why)
{
    say(why);
    system_end(1);
}

void say_stack(uintptr_t top)
{
    char words[] = "stack      0\n";
    uint32_t at = 0;
    while (stack[at] == MARK)
        at++;
    if (at < LEFT)
        stop("server: the stack is used up\n");
    for (uint32_t used = (uint32_t)(top - (uintptr_t)stack) - at, place = 11; used > 0; used /= 10)
        words[place--] = (char)('0' + used % 10);
    say(words);
}

void begin(void)
{
    for (uint32_t at = 0; at < STACK - FIRST; at++)
        ((volatile uint8_t *)stack)[at] = MARK;
    serve();
    system_end(0);
}
