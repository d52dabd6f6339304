/* plain.c: what the counted code asks of the C library, as plain loops: which memcpy a C library takes depends on the machine. */
#include <stddef.h>
#include <stdint.h>

void *memcpy(void *restrict to, const void *restrict from, size_t n)
{
    char *t = to;
    const char *f = from;
    for (; n >= 8; n -= 8, t += 8, f += 8) __builtin_memcpy(t, f, 8);
    for (; n > 0; n--) *t++ = *f++;
    return to;
}

void *memmove(void *to, const void *from, size_t n)
{
    char *t = to;
    const char *f = from;
    if ((uintptr_t)to - (uintptr_t)from >= n) return memcpy(to, from, n);
    while (n-- > 0) t[n] = f[n];
    return to;
}

void *memset(void *to, int octet, size_t n)
{
    char *t = to;
    uint64_t eight = 0x0101010101010101u * (uint8_t)octet;
    for (; n >= 8; n -= 8, t += 8) __builtin_memcpy(t, &eight, 8);
    for (; n > 0; n--) *t++ = (char)octet;
    return to;
}

int memcmp(const void *a, const void *b, size_t n)
{
    const uint8_t *x = a, *y = b;
    for (size_t i = 0; i < n; i++)
        if (x[i] != y[i]) return x[i] - y[i];
    return 0;
}
