/* sweep.c: for two machines to be compared by (with told.c), calls that reach all of an entry's
 * code, bit by bit.
 *
 * On boards with S and without it, with the line down and up, each entry is called as is right,
 * and with each bit of each image, of a settings file, of each number, of the totals and of a call
 * log flipped alone. Those that take a CSR's address are called for each CSR with each bit alone,
 * and with all but that one; tally also with each total alone at its limit and just below it, and
 * replay with each count of waiting bytes and each cut of two entries.
 * Nothing is judged here. Prints `N calls`. */
#include "images.h"
#include "legal.h"
#include "log.h"

#include <stdio.h>

#define BOARDS 4 /* of each entry: every other one has S, and the line is up for the last two */
#define SOURCE 6 /* the register whose value is written */

static uint64_t seed = 1;
static unsigned calls;

static void make(const struct call *call)
{
    struct call own = *call;
    const struct lent lent = {&own.totals,
                              {own.wait.bytes, own.wait.length},
                              {own.fragment.bytes, own.fragment.length},
                              {own.out.bytes, own.out.length}};
    call_entry(own.entry, own.numbers, own.caps.bytes, own.caps.length, own.hart.bytes, own.hart.length, &lent);
    calls++;
}

static void flip_each(struct call *call, uint8_t *bytes, size_t length)
{
    for (size_t i = 0; i < 8 * length; i++) {
        bytes[i / 8] ^= (uint8_t)(1 << i % 8);
        make(call);
        bytes[i / 8] ^= (uint8_t)(1 << i % 8);
    }
}

/* Gives the call this value to write: it is a number of it, or stands in a register, or is an
 * immediate. A read, which writes nothing, gets it as its seed. */
static void write_value(struct call call, uint64_t value)
{
    switch (call.entry) {
    case WRITE:
    case PLAIN_WRITE:
    case EXPLAIN:
    case TALLY: call.numbers[1] = value; break;
    case CSRRW:
    case CSRRS:
    case CSRRC:
        call.numbers[2] = SOURCE;
        vhart_put(call.hart.bytes, VHART_HART_X0 + SOURCE, value);
        break;
    default: call.numbers[2] = value % 32;
    }
    make(&call);
}

static void write_each(struct call *call)
{
    for (size_t i = 0; i < csrs_count; i++) {
        call->numbers[0] = csrs[i].first;
        for (int bit = 0; bit < 64; bit++) {
            write_value(*call, (uint64_t)1 << bit);
            write_value(*call, ~((uint64_t)1 << bit));
        }
    }
}

/* Each total alone at its limit and up to three below it, for each CSR. */
static void fill_each(struct call *call)
{
    for (size_t i = 0; i < csrs_count; i++) {
        call->numbers[0] = csrs[i].first;
        for (int k = 0; k < TOTALS; k++) {
            uint32_t was = get_total(&call->totals, k);
            for (uint32_t room = 0; room < 4; room++) {
                put_total(&call->totals, k, UINT32_MAX - room);
                write_value(*call, 0);
                write_value(*call, ~(uint64_t)0);
            }
            put_total(&call->totals, k, was);
        }
    }
}

/* Each bit of the waiting bytes and of the whole fragment, and then each count of waiting bytes
 * with each fragment of up to two entries. */
static void cut_each(struct call *call)
{
    size_t longest = call->entry == REPLAY ? 2 * ENTRY : 0;
    flip_each(call, call->wait.bytes, call->wait.length);
    flip_each(call, call->fragment.bytes, call->fragment.length);
    for (size_t waiting = 0; waiting < ENTRY; waiting++) {
        call->wait.bytes[0] = (uint8_t)waiting;
        for (call->fragment.length = 0; call->fragment.length <= longest; call->fragment.length++) make(call);
    }
}

static void sweep(enum entry entry, int has_board_s, uint64_t line)
{
    struct call call;
    uint64_t c[VHART_CAPS_WORDS];
    do {
        draw_call(&seed, entry, &call);
        get_words(c, call.caps.bytes, VHART_CAPS_WORDS);
    } while (has_s(c) != has_board_s);
    if (can_give(entry, VHART_BAD_LINE)) call.numbers[line_at(entry)] = line;
    if (entry == REPLAY) call.fragment.length = call.out.length = LONGEST;
    make(&call);
    flip_each(&call, call.caps.bytes, call.caps.length);
    flip_each(&call, call.hart.bytes, call.hart.length);
    flip_each(&call, (uint8_t *)call.numbers, 8 * (size_t)entries[entry].numbers);
    if (entry == TALLY) flip_each(&call, (uint8_t *)&call.totals, sizeof call.totals);
    if (can_give(entry, VHART_NO_SUCH_CSR)) write_each(&call);
    if (entry == TALLY) fill_each(&call);
    if (is_on_log(entry)) cut_each(&call);
}

int main(void)
{
    for (int entry = 0; entry < ENTRIES; entry++) {
        for (int board = 0; board < BOARDS; board++) sweep((enum entry)entry, board % 2, board >= BOARDS / 2);
    }
    printf("%u calls\n", calls);
    return 0;
}
