/* check.h: makes a call, and compares what came with the rules, with what every call promises, and
 * with what another entry makes of it. */
#ifndef CHECK_H
#define CHECK_H

#include "log.h"
#include "lost.h"

#define GUARD 64 /* bytes on each side of what is lent that must stay as they were */

/* Where what is lent lies: how many bytes stand before each in its block, and how many behind.
 * Before the totals it is a multiple of 4. */
struct place {
    size_t before_caps, before_hart, before_totals, before_wait, before_fragment, before_out, behind;
};

/* The refusals that entries of each kind were given, each as the bit of its number; behind the
 * kinds, those of no kind. */
struct entered {
    unsigned refusals[KINDS + 1];
};

struct verdict {
    uint64_t owed, came;    /* the refusal by the table, and the one given */
    uint8_t reasons[BITS];  /* given for each lost bit, and 0 behind them */
    struct entered entered; /* of the entries that were replayed */
    int is_right;
};

/* Makes the call on copies of what it is lent, each in a block of its own. What is wrong is printed
 * with the whole call. */
struct verdict check_call(const struct call *call, struct place place);

/* Makes the calls of so many entries one by one on the record of this call, and puts what each
 * gives into out; 0 where one of them was given another refusal than the table's. */
int replay_singly(struct call *call, const uint8_t *log, size_t count, uint8_t *out, struct entered *entered);

/* Prints the call: its numbers, the words of its images that aren't 0, the bytes of a file, the
 * totals, and the bytes that are for a call log. */
void print_call(const struct call *call);

/* Prints what they are, how many, and each of them. */
void print_bytes(const char *what, const uint8_t *bytes, size_t length);

#endif
