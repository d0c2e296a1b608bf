/* counted.c: makes a call, and prints how many instructions it took, by the board's own counter. */
#include "../c/entries.h"

#include <stdio.h>

static uint64_t instret(void)
{
    uint64_t count;
    __asm__ volatile("csrr %0, minstret" : "=r"(count) : : "memory");
    return count;
}

struct given call_entry(enum entry entry, const uint64_t *numbers, const uint8_t *caps, size_t caps_length,
                        uint8_t *hart, size_t hart_length, const struct lent *lent)
{
    struct apart apart = {{0, {0}}, {0, 0, {0}, {0}}};
    uint64_t before = instret();
    vhart_outcome outcome = enter(entry, numbers, caps, caps_length, hart, hart_length, lent, &apart);
    uint64_t after = instret();
    printf("%s %llu\n", entries[entry].name, (unsigned long long)(after - before));
    return together(outcome, &apart);
}
