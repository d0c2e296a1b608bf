/* entries.h: the entries of vhart.h as one list, so that one call can be any of them. */
#ifndef ENTRIES_H
#define ENTRIES_H

#include "vhart.h"

#include <string.h>

/* The calls on a record that give an outcome: a name in capitals and in small letters, what the
 * call may do to the hart image, and how many numbers it takes. */
#define EACH_CALL(X)                    \
    X(FRESH, fresh, CHANGES, 1)         \
    X(READ, read, READS, 4)             \
    X(WRITE, write, CHANGES, 2)         \
    X(CSRRW, csrrw, CHANGES, 6)         \
    X(CSRRS, csrrs, CHANGES, 6)         \
    X(CSRRC, csrrc, CHANGES, 6)         \
    X(CSRRWI, csrrwi, CHANGES, 6)       \
    X(CSRRSI, csrrsi, CHANGES, 6)       \
    X(CSRRCI, csrrci, CHANGES, 6)       \
    X(PENDING, pending, READS, 0)       \
    X(INJECT, inject, CHANGES, 1)       \
    X(TRAP, trap, CHANGES, 5)           \
    X(MRET, mret, CHANGES, 0)           \
    X(SRET, sret, CHANGES, 0)           \
    X(PLAIN_READ, plain_read, READS, 4) \
    X(PLAIN_WRITE, plain_write, CHANGES, 2)

#define NUMBERS 8 /* that an entry takes behind its images, at most */

/* So many numbers of n, as an entry takes them. */
#define TAKEN_0(n)
#define TAKEN_1(n) , (n)[0]
#define TAKEN_2(n) TAKEN_1(n), (n)[1]
#define TAKEN_3(n) TAKEN_2(n), (n)[2]
#define TAKEN_4(n) TAKEN_3(n), (n)[3]
#define TAKEN_5(n) TAKEN_4(n), (n)[4]
#define TAKEN_6(n) TAKEN_5(n), (n)[5]
#define TAKEN_7(n) TAKEN_6(n), (n)[6]
#define TAKEN_8(n) TAKEN_7(n), (n)[7]

/* The calls on a record, of which explain gives a listing, tally takes totals and the last two a
 * call log, and behind them the two checks and the two on a settings file, which take and give
 * something else. */
#define AS_NUMBER(capitals, name, access, count) capitals,
enum entry {
    EACH_CALL(AS_NUMBER)
    EXPLAIN,
    TALLY,
    REPLAY,
    REPLAY_END,
    CHECK_CAPS,
    CHECK_HART,
    SETTINGS_READ,
    SETTINGS_WRITE,
    ENTRIES
};
#undef AS_NUMBER
enum { CALLS = CHECK_CAPS };

/* Its name without vhart_, how many numbers it takes, and whether it only reads the hart image or
 * the file. */
#define AS_ROW(capitals, name, access, count) {#name, count, access},
enum { CHANGES, READS };
static const struct {
    const char *name;
    int numbers, only_reads;
} entries[ENTRIES] = {
    EACH_CALL(AS_ROW)
    {"explain", 4, READS},
    {"tally", 4, READS},
    {"replay", 0, CHANGES},
    {"replay_end", 0, READS},
    {"check_caps", 0, READS},
    {"check_hart", 0, READS},
    {"settings_read", 0, READS},
    {"settings_write", 0, CHANGES},
};
#undef AS_ROW

static inline int is_check(enum entry entry) { return entry == CHECK_CAPS || entry == CHECK_HART; }

static inline int is_on_log(enum entry entry) { return entry == REPLAY || entry == REPLAY_END; }

/* Whether a settings file stands in the place of the hart image. */
static inline int is_on_file(enum entry entry) { return entry == SETTINGS_READ || entry == SETTINGS_WRITE; }

/* The entry with the same contract by the other engine; where there is none, the entry itself. */
static inline enum entry twin_of(enum entry entry)
{
    switch (entry) {
    case READ: return PLAIN_READ;
    case WRITE: return PLAIN_WRITE;
    case PLAIN_READ: return READ;
    case PLAIN_WRITE: return WRITE;
    default: return entry;
    }
}

/* Where the line stands among the numbers of an entry that takes it: it is the last. */
static inline int line_at(enum entry entry) { return entries[entry].numbers - 1; }

/* What the second and the third number are that it gives. */
static inline const char *second_of(enum entry entry)
{
    return is_check(entry) ? "word" : entry == EXPLAIN ? "count" : "answer";
}

static inline const char *third_of(enum entry entry) { return is_check(entry) ? "value" : "effect"; }

#define BITS 64 /* of a word, and entries of each list that explain gives */

/* The totals by number, and their names. */
enum { WRITES = 7, LOSSLESS, TOTALS };
static const char *const total_names[TOTALS] = {"lost[0]", "lost[1]", "lost[2]", "lost[3]", "lost[4]",
                                                "lost[5]", "lost[6]", "writes",  "lossless"};

static inline uint32_t get_total(const vhart_totals *totals, int i)
{
    return i < WRITES ? totals->lost[i] : i == WRITES ? totals->writes : totals->lossless;
}

static inline void put_total(vhart_totals *totals, int i, uint32_t value)
{
    if (i < WRITES) totals->lost[i] = value;
    else if (i == WRITES) totals->writes = value;
    else totals->lossless = value;
}

/* What an entry gives, whichever it is: of a check the word and the value stand for answer and
 * effect, and of explain the count for the answer. settings_read alone gives words, and explain
 * alone bits and reasons. */
struct given {
    uint64_t refusal, answer, effect, words[VHART_CAPS_WORDS];
    uint8_t bits[BITS], reasons[BITS];
};

/* What an entry is lent beside the images: tally the totals, replay the rest, and replay_end of
 * that the waiting bytes. */
struct bytes {
    uint8_t *at;
    size_t length;
};
struct lent {
    vhart_totals *totals;
    struct bytes wait, fragment, out;
};

/* How a program makes its calls is linked to it: calls.c, told.c, or board/counted.c. settings_read
 * isn't given the capabilities, and check_caps not the hart image. For an entry that is lent
 * nothing else, that is null. */
struct given call_entry(enum entry entry, const uint64_t *numbers, const uint8_t *caps, size_t caps_length,
                        uint8_t *hart, size_t hart_length, const struct lent *lent);

/* A fault as an outcome, so that every entry gives one. */
static inline vhart_outcome as_outcome(vhart_fault fault)
{
    vhart_outcome outcome = {fault.refusal, fault.word, fault.value};
    return outcome;
}

/* What two entries give in the place of an outcome. */
struct apart {
    vhart_settings settings;
    vhart_listing listing;
};

/* Gives the outcome, or puts what there is in its place: apart, so that to count a call counts no
 * copies of words that it doesn't give. */
static inline vhart_outcome enter(enum entry entry, const uint64_t *numbers, const uint8_t *caps, size_t caps_length,
                                  uint8_t *hart, size_t hart_length, const struct lent *lent, struct apart *apart)
{
    vhart_outcome none = {0, 0, 0};
    switch (entry) {
#define AS_CASE(capitals, name, access, count) \
    case capitals: return vhart_##name(caps, caps_length, hart, hart_length TAKEN_##count(numbers));
        EACH_CALL(AS_CASE)
#undef AS_CASE
    case EXPLAIN:
        apart->listing = vhart_explain(caps, caps_length, hart, hart_length TAKEN_4(numbers));
        return none;
    case TALLY: return vhart_tally(caps, caps_length, hart, hart_length TAKEN_4(numbers), lent->totals);
    case REPLAY:
        return vhart_replay(caps, caps_length, hart, hart_length, lent->wait.at, lent->wait.length, lent->fragment.at,
                            lent->fragment.length, lent->out.at, lent->out.length);
    case REPLAY_END: return vhart_replay_end(caps, caps_length, hart, hart_length, lent->wait.at, lent->wait.length);
    case CHECK_CAPS: return as_outcome(vhart_check_caps(caps, caps_length));
    case CHECK_HART: return as_outcome(vhart_check_hart(caps, caps_length, hart, hart_length));
    case SETTINGS_READ: apart->settings = vhart_settings_read(hart, hart_length); return none;
    case SETTINGS_WRITE: return vhart_settings_write(caps, caps_length, hart, hart_length);
    case ENTRIES: break;
    }
    return none; /* there is no such entry */
}

/* All as one. */
static inline struct given together(vhart_outcome outcome, const struct apart *apart)
{
    const vhart_listing *listing = &apart->listing;
    struct given given = {outcome.refusal | apart->settings.refusal | listing->refusal,
                          outcome.answer | listing->count, outcome.effect, {0}, {0}, {0}};
    memcpy(given.words, apart->settings.words, sizeof given.words);
    memcpy(given.bits, listing->bits, sizeof given.bits);
    memcpy(given.reasons, listing->reasons, sizeof given.reasons);
    return given;
}

#endif
