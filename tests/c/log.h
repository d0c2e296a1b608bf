/* log.h: what docs/RULES.md says of a call log, stated for tests and apart from the library. */
#ifndef LOG_H
#define LOG_H

#include "table.h"

#define ENTRY 24 /* bytes of an entry, of what it puts out, and of the waiting bytes */
#define KINDS 5  /* of entries */

/* Which call an entry of each kind is, and how many of its two other words this takes. */
struct kind {
    enum entry entry;
    int words;
};
extern const struct kind kinds[KINDS];

/* Makes the call the one that this entry is; 0 where it is none, and refused for that. */
int call_of_entry(const uint8_t *entry, struct call *call);

/* How many entries this call of replay completes. */
size_t entries_completed(const struct call *call);

/* The waiting bytes and the fragment of this call as one run; its length. */
#define LONGEST_LOG (LONGEST + ENTRY - 1)
size_t join_log(const struct call *call, uint8_t *log);

/* The waiting bytes that a log of this length leaves. */
void put_waiting(uint8_t *wait, const uint8_t *log, size_t length);

#endif
