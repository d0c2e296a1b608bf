/* calls.c: makes a call, and no more. */
#include "entries.h"

struct given call_entry(enum entry entry, const uint64_t *numbers, const uint8_t *caps, size_t caps_length,
                        uint8_t *hart, size_t hart_length, const struct lent *lent)
{
    struct apart apart = {{0, {0}}, {0, 0, {0}, {0}}};
    vhart_outcome outcome = enter(entry, numbers, caps, caps_length, hart, hart_length, lent, &apart);
    return together(outcome, &apart);
}
