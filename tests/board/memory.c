/* memory.c: the three functions that the library needs of a monitor, by words where all is
 * aligned, else by bytes.
 *
 * Compile it with -ffreestanding -fno-tree-loop-distribute-patterns: else gcc makes of a loop a
 * call of the function that it stands in. */
#include <stddef.h>
#include <stdint.h>

typedef uint64_t word __attribute__((may_alias));

#define ARE_WORDS(a, b, count) (((uintptr_t)(a) | (uintptr_t)(b) | (count)) % sizeof(word) == 0)

void *memcpy(void *restrict to, const void *restrict from, size_t count);
void *memmove(void *to, const void *from, size_t count);
void *memset(void *to, int byte, size_t count);

void *memcpy(void *restrict to, const void *restrict from, size_t count)
{
    uint8_t *t = to;
    const uint8_t *f = from;
    if (ARE_WORDS(t, f, count)) {
        for (size_t i = 0; i < count / sizeof(word); i++) ((word *)to)[i] = ((const word *)from)[i];
        return to;
    }
    for (size_t i = 0; i < count; i++) t[i] = f[i];
    return to;
}

void *memmove(void *to, const void *from, size_t count)
{
    uint8_t *t = to;
    const uint8_t *f = from;
    if ((uintptr_t)t <= (uintptr_t)f) return memcpy(to, from, count);
    while (count-- > 0) t[count] = f[count];
    return to;
}

void *memset(void *to, int byte, size_t count)
{
    uint8_t *t = to;
    if (ARE_WORDS(t, t, count)) {
        word each = (uint8_t)byte * 0x0101010101010101;
        for (size_t i = 0; i < count / sizeof(word); i++) ((word *)to)[i] = each;
        return to;
    }
    for (size_t i = 0; i < count; i++) t[i] = (uint8_t)byte;
    return to;
}
