/* memcpy, memmove and memset as the C library of a small processor has them: four bytes at a time where both ends lie
   alike, else byte by byte, and never by vectors. The program that looks for the worst case is linked with these.
   Compiled with -fno-tree-loop-distribute-patterns: the compiler would otherwise make of each loop a call of itself. */
#include <stddef.h>
#include <stdint.h>

typedef uint32_t __attribute__((may_alias)) word;

void *memcpy(void *restrict to, const void *restrict from, size_t length);
void *memmove(void *to, const void *from, size_t length);
void *memset(void *to, int value, size_t length);

static int lie_alike(const void *to, const void *from)
{
    return (((uintptr_t)to ^ (uintptr_t)from) & 3) == 0;
}

static void copy_up(unsigned char *at, const unsigned char *from, size_t length)
{
    if (lie_alike(at, from)) {
        for (; length > 0 && ((uintptr_t)at & 3) != 0; length--)
            *at++ = *from++;
        for (; length >= 4; length -= 4, at += 4, from += 4)
            *(word *)at = *(const word *)from;
    }
    while (length-- > 0)
        *at++ = *from++;
}

/* from the end on, for what lies over its own source */
static void copy_down(unsigned char *at, const unsigned char *from, size_t length)
{
    at += length;
    from += length;
    if (lie_alike(at, from)) {
        for (; length > 0 && ((uintptr_t)at & 3) != 0; length--)
            *--at = *--from;
        for (; length >= 4; length -= 4) {
            at -= 4;
            from -= 4;
            *(word *)at = *(const word *)from;
        }
    }
    while (length-- > 0)
        *--at = *--from;
}

void *memcpy(void *restrict to, const void *restrict from, size_t length)
{
    copy_up(to, from, length);
    return to;
}

void *memmove(void *to, const void *from, size_t length)
{
    if ((uintptr_t)to <= (uintptr_t)from)
        copy_up(to, from, length);
    else
        copy_down(to, from, length);
    return to;
}

void *memset(void *to, int value, size_t length)
{
    unsigned char *at = to;
    for (; length > 0 && ((uintptr_t)at & 3) != 0; length--)
        *at++ = (unsigned char)value;
    for (; length >= 4; length -= 4, at += 4)
        *(word *)at = (unsigned char)value * 0x01010101u;
    while (length-- > 0)
        *at++ = (unsigned char)value;
    return to;
}
