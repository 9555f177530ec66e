/* What compilers call by name, which a C library has: plain stand-ins, for a program that has none. No division is among them. */
#include <stddef.h>
#include <stdint.h>

void *memmove(void *to, const void *from, size_t n)
{
    uint8_t *t = to;
    const uint8_t *f = from;
    if ((uintptr_t)t < (uintptr_t)f)
        for (size_t i = 0; i < n; i++)
            t[i] = f[i];
    else
        for (size_t i = n; i > 0; i--)
            t[i - 1] = f[i - 1];
    return to;
}

void *memcpy(void *to, const void *from, size_t n)
{
    return memmove(to, from, n);
}

void *memset(void *to, int byte, size_t n)
{
    for (size_t i = 0; i < n; i++)
        ((uint8_t *)to)[i] = (uint8_t)byte;
    return to;
}

#if defined(__arm__)
void __aeabi_memmove(void *to, const void *from, size_t n)
{
    memmove(to, from, n);
}

void __aeabi_memset(void *to, size_t n, int byte)
{
    memset(to, byte, n);
}

void __aeabi_memclr(void *to, size_t n)
{
    memset(to, 0, n);
}

#define ALSO(name, of) __typeof__(of) name __attribute__((alias(#of)))
ALSO(__aeabi_memmove4, __aeabi_memmove);
ALSO(__aeabi_memmove8, __aeabi_memmove);
ALSO(__aeabi_memcpy, __aeabi_memmove);
ALSO(__aeabi_memcpy4, __aeabi_memmove);
ALSO(__aeabi_memcpy8, __aeabi_memmove);
ALSO(__aeabi_memset4, __aeabi_memset);
ALSO(__aeabi_memset8, __aeabi_memset);
ALSO(__aeabi_memclr4, __aeabi_memclr);
ALSO(__aeabi_memclr8, __aeabi_memclr);
#endif
