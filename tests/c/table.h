/* table.h: what docs/RULES.md says of legality, of refusals and of the settings file, stated for
 * tests and apart from the library. */
#ifndef TABLE_H
#define TABLE_H

#include "entries.h"

#define REFUSALS 24 /* above the numbers that a call can give, 0 (done) among them */
#define LONGEST 600 /* bytes of an image, a file, a fragment or out */

struct image {
    uint8_t bytes[LONGEST];
    size_t length;
};

/* A call as it is made: the entry, its numbers, and the images, totals and bytes for a call log
 * that are lent to it. The entries on a settings file have this file in the place of the hart
 * image. */
struct call {
    enum entry entry;
    uint64_t numbers[NUMBERS];
    struct image caps, hart;
    vhart_totals totals;
    struct image wait, fragment, out;
};

/* The number that the table gives for this call, or 0 where it gives none. */
uint64_t refusal_owed(const struct call *call);

/* What the table gives for this call of a check. */
vhart_fault fault_owed(const struct call *call);

/* The words that the table gives for this call of settings_read. */
void words_owed(const struct call *call, uint64_t *words);

/* The settings file that holds these capabilities, which needn't be legal. */
void put_settings(uint8_t *file, const uint8_t *caps);

/* All the numbers whose row is about the entry and applies to the call, each as the bit of its
 * number. */
unsigned refusals_applying(const struct call *call);

/* Whether the entry can give this number. */
int can_give(enum entry entry, uint64_t refusal);

/* Whether the entry tests what the record holds. */
int tests_record(enum entry entry);

/* A condition of legality: the word that it is about, and what it makes of a value under the
 * capabilities c. A word's conditions, met one after the other, leave a legal value. */
struct condition {
    const char *name;
    size_t word;
    uint64_t (*legal)(const uint64_t *c, uint64_t value);
};
extern const struct condition caps_conditions[], hart_conditions[];
extern const size_t caps_conditions_count, hart_conditions_count;

/* Whether the image with these words meets it. */
int is_met(const struct condition *condition, const uint64_t *c, const uint64_t *words);

/* The lowest word of an image that breaks a condition, or how many words it has where none does: c
 * are those of the capabilities, h those of the hart. */
size_t illegal_word_of_caps(const uint64_t *c);
size_t illegal_word_of_hart(const uint64_t *c, const uint64_t *h); /* where c is legal */

/* The CSRs, as runs of addresses. */
struct csrs {
    uint64_t first, last;
};
extern const struct csrs csrs[];
extern const size_t csrs_count;

int is_csr(uint64_t address);
int is_csr_absent(const uint64_t *c, uint64_t address);

/* The extensions, by misa's letters and by the flags. */
int has_s(const uint64_t *c);
int has_c(const uint64_t *c);
int has_f(const uint64_t *c);
int has_flag(const uint64_t *c, enum vhart_flag flag);

/* What a register makes of a value. */
uint64_t legal_mstatus(const uint64_t *c, uint64_t value);
uint64_t legal_mideleg(const uint64_t *c, uint64_t value);
uint64_t legal_medeleg(const uint64_t *c, uint64_t value);
uint64_t legal_menvcfg(const uint64_t *c, uint64_t value);
uint64_t legal_senvcfg(const uint64_t *c, uint64_t value);

/* The next address below that an instruction can have. */
uint64_t aligned(const uint64_t *c, uint64_t address);

/* The mode that mstatus has in its field MPP. */
uint64_t mpp_of(uint64_t mstatus);

#endif
