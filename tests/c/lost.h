/* lost.h: what docs/RULES.md says of the bits that a write loses and of their totals, stated for
 * tests and apart from the library. */
#ifndef LOST_H
#define LOST_H

#include "table.h"

#define REASONS 8 /* the numbers behind a listing's bits, 0 (no bit) among them */

/* The listing that the rules give for this call of explain. */
vhart_listing listing_owed(const struct call *call);

/* How much this call of tally adds to each total, where it is done. */
void add_up(const struct call *call, uint64_t *added);

/* The totals that the rules leave after this call of tally. */
vhart_totals totals_owed(const struct call *call);

/* The word of the record that a write to this CSR can change, or how many words there are where it
 * stores nothing. */
size_t word_written(uint64_t address);

/* What that word holds before this call of explain or tally, or else what the CSR reads. */
uint64_t held_before(const struct call *call);

/* The bits of a value that are compared, with h as the words of the record. */
uint64_t bits_compared(const uint64_t *h, uint64_t address);

#endif
