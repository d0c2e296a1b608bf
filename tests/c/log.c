/* log.c: call logs by docs/RULES.md: which call an entry is, and what waits of a log.
 *
 * It is written from those rules and never from the library, as table.c is. */
#include "log.h"

#include <string.h>

const struct kind kinds[KINDS] = {
    {READ, 1},   /* the address */
    {WRITE, 2},  /* the address, the value */
    {INJECT, 1}, /* the number */
    {MRET, 0},
    {SRET, 0},
};

/* The words that the call doesn't take are 0, and so are time, seed and line. */
int call_of_entry(const uint8_t *entry, struct call *call)
{
    uint64_t kind = vhart_get(entry, 0);
    if (kind >= KINDS) return 0;
    for (int i = 0; i < NUMBERS; i++) call->numbers[i] = 0;
    for (int i = 0; i < 2; i++) {
        uint64_t word = vhart_get(entry, (size_t)i + 1);
        if (i >= kinds[kind].words && word != 0) return 0;
        call->numbers[i] = word;
    }
    call->entry = kinds[kind].entry;
    return 1;
}

size_t entries_completed(const struct call *call) { return (call->wait.bytes[0] + call->fragment.length) / ENTRY; }

size_t join_log(const struct call *call, uint8_t *log)
{
    size_t waiting = call->wait.bytes[0];
    memcpy(log, call->wait.bytes + 1, waiting);
    memcpy(log + waiting, call->fragment.bytes, call->fragment.length);
    return waiting + call->fragment.length;
}

void put_waiting(uint8_t *wait, const uint8_t *log, size_t length)
{
    size_t waiting = length % ENTRY;
    memset(wait, 0, ENTRY); /* behind them, too */
    wait[0] = (uint8_t)waiting;
    memcpy(wait + 1, log + length - waiting, waiting);
}
