/* legal.h: legal images and good numbers, drawn at random: what bad input is made from. */
#ifndef LEGAL_H
#define LEGAL_H

#include "table.h"

/* The next number of a run of draws, which its state alone decides (splitmix64). */
uint64_t draw(uint64_t *state);

/* A number below the limit. */
uint64_t draw_below(uint64_t *state, uint64_t limit);

/* A word of the kinds that find faults: none, all or few of its bits set, small, near a power of
 * two, or any. */
uint64_t draw_word(uint64_t *state);

/* So many bytes, whole words of that kind. */
void draw_bytes(uint64_t *state, uint8_t *bytes, size_t length);

/* A legal capability image, of its right length. */
void draw_caps(uint64_t *state, struct image *caps);

/* A legal call of this entry, in mode M where the entry asks for that; fresh gets any bytes for
 * its record, or a legal one. settings_read gets a file of the call's capabilities, and
 * settings_write any bytes. tally gets totals that have room. replay gets a log whose entries are
 * good more often than not, cut anywhere, and an out that has room; replay_end one of which nothing
 * waits. Where the call can't be accepted on the board (sret without S, inject without any
 * interrupt) it is refused for that alone. */
void draw_call(uint64_t *state, enum entry entry, struct call *call);

/* The same on the capabilities that the call has. */
void draw_rest(uint64_t *state, enum entry entry, struct call *call);

/* So many entries of a log for the call's capabilities. */
void draw_entries(uint64_t *state, const struct call *call, uint8_t *log, size_t count);

#endif
