/* cuts.h: a call log that comes in fragments, beside the same log by single calls. */
#ifndef CUTS_H
#define CUTS_H

#include "check.h"

#define LONGEST_CUT (ENTRY * 1000 + ENTRY - 1) /* bytes of a log that is cut */

/* A log, the images that it begins on, and what its entries give and leave by calls one by one. */
struct cut {
    struct call first, last;
    uint8_t log[LONGEST_CUT + 1], given[LONGEST_CUT]; /* of the log, all of its last entry */
    size_t length;
};

/* Draws a log of so many bytes, and makes its calls; 0 where one isn't as the table has it. */
int draw_cut(uint64_t *state, size_t length, struct cut *cut);

/* Whether one of its entries of this kind was done, and one refused. */
int has_both(const struct cut *cut, uint64_t kind);

/* Replays the log in the fragments that end at these bytes, which don't descend, and one more, and
 * ends it; 0 where anything comes that isn't what its calls give and leave: that is printed. */
int is_cut_right(const struct cut *cut, const size_t *ends, size_t count);

#endif
