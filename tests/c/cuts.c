/* cuts.c: replays a call log cut anywhere: what it gives, the record and what waits are those of
 * the log's calls, one by one. */
#include "cuts.h"

#include "legal.h"

#include <stdio.h>
#include <string.h>

int draw_cut(uint64_t *state, size_t length, struct cut *cut)
{
    struct entered entered = {{0}};
    draw_call(state, REPLAY, &cut->first);
    memset(cut->first.wait.bytes, 0, ENTRY);
    draw_entries(state, &cut->first, cut->log, length / ENTRY + 1);
    cut->length = length;
    cut->last = cut->first;
    put_waiting(cut->last.wait.bytes, cut->log, length);
    return replay_singly(&cut->last, cut->log, length / ENTRY, cut->given, &entered);
}

int has_both(const struct cut *cut, uint64_t kind)
{
    int is_done = 0, is_refused = 0;
    for (size_t i = 0; i < cut->length / ENTRY; i++) {
        int is_of_kind = vhart_get(cut->log, 3 * i) == kind, refusal = vhart_get(cut->given, 3 * i + 2) != VHART_DONE;
        is_done |= is_of_kind && !refusal;
        is_refused |= is_of_kind && refusal;
    }
    return is_done && is_refused;
}

/* Makes this call of an entry on a log, on its own images. */
static struct given enter_as(struct call *call, enum entry entry, const struct lent *lent)
{
    call->entry = entry;
    return call_entry(entry, call->numbers, call->caps.bytes, call->caps.length, call->hart.bytes, call->hart.length,
                      lent);
}

static int tell(const struct cut *cut, const char *wrong, size_t from, size_t to)
{
    printf("wrong: vhart_replay: %s: a log of %lu bytes, of which %lu to %lu came last\n", wrong,
           (unsigned long)cut->length, (unsigned long)from, (unsigned long)to);
    print_call(&cut->first);
    if (cut->length <= LONGEST) print_bytes("log", cut->log, cut->length);
    return 0;
}

int is_cut_right(const struct cut *cut, const size_t *ends, size_t count)
{
    static uint8_t fragment[LONGEST_CUT], out[LONGEST_CUT];
    struct call call = cut->first;
    struct lent lent = {NULL, {call.wait.bytes, ENTRY}, {fragment, 0}, {out, 0}};
    size_t from = 0, put = 0;
    for (size_t i = 0; i <= count; i++) {
        size_t to = i < count ? ends[i] : cut->length;
        memcpy(fragment, cut->log + from, to - from);
        lent.fragment.length = to - from;
        lent.out.length = ENTRY * (to / ENTRY) - put;
        struct given came = enter_as(&call, REPLAY, &lent);
        if (came.refusal != VHART_DONE) return tell(cut, "a refusal", from, to);
        if (came.answer != lent.out.length / ENTRY) return tell(cut, "another count of entries", from, to);
        if (memcmp(out, cut->given + put, lent.out.length) != 0) return tell(cut, "another result", from, to);
        from = to;
        put += lent.out.length;
    }
    uint64_t at_end = enter_as(&call, REPLAY_END, &lent).refusal;
    if (at_end != refusal_owed(&call)) return tell(cut, "another refusal of its end", 0, from);
    if (memcmp(call.hart.bytes, cut->last.hart.bytes, VHART_HART_BYTES) != 0) {
        return tell(cut, "another record", 0, from);
    }
    if (memcmp(call.wait.bytes, cut->last.wait.bytes, ENTRY) != 0) return tell(cut, "other waiting bytes", 0, from);
    return 1;
}
