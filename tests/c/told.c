/* told.c: makes a call, and prints what it gave and a digest of what it left of each image or file,
 * of the totals, and of what it was lent for a call log, so that what two machines do can be
 * compared. */
#include "entries.h"

#include <stdio.h>

/* FNV-1a: no two images that differ in one byte have the same. */
static unsigned long long digest(const uint8_t *bytes, size_t length)
{
    uint64_t digest = 0xCBF29CE484222325;
    for (size_t i = 0; i < length; i++) digest = (digest ^ bytes[i]) * 0x100000001B3;
    return digest;
}

struct given call_entry(enum entry entry, const uint64_t *numbers, const uint8_t *caps, size_t caps_length,
                        uint8_t *hart, size_t hart_length, const struct lent *lent)
{
    struct apart apart = {{0, {0}}, {0, 0, {0}, {0}}};
    vhart_outcome outcome = enter(entry, numbers, caps, caps_length, hart, hart_length, lent, &apart);
    struct given came = together(outcome, &apart);
    printf("%s %llu %llx %llu %llx %llx", entries[entry].name, (unsigned long long)came.refusal,
           (unsigned long long)came.answer, (unsigned long long)came.effect, digest(caps, caps_length),
           digest(hart, hart_length));
    for (int i = 0; i < VHART_CAPS_WORDS && entry == SETTINGS_READ; i++) {
        printf(" %llx", (unsigned long long)came.words[i]);
    }
    if (entry == EXPLAIN) printf(" %llx %llx", digest(came.bits, BITS), digest(came.reasons, BITS));
    if (entry == TALLY) printf(" %llx", digest((const uint8_t *)lent->totals, sizeof *lent->totals));
    if (is_on_log(entry)) printf(" %llx", digest(lent->wait.at, lent->wait.length));
    if (entry == REPLAY) printf(" %llx", digest(lent->out.at, lent->out.length));
    printf("\n");
    return came;
}
