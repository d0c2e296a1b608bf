/* legal.c: draws legal images, by making each word meet table.c's conditions. */
#include "legal.h"

#include "images.h"
#include "log.h"
#include "lost.h"

#include <string.h>

#define FILLER 0xA5 /* the bytes behind an image's right length */

uint64_t draw(uint64_t *state)
{
    uint64_t z = *state += 0x9E3779B97F4A7C15;
    z = (z ^ z >> 30) * 0xBF58476D1CE4E5B9;
    z = (z ^ z >> 27) * 0x94D049BB133111EB;
    return z ^ z >> 31;
}

uint64_t draw_below(uint64_t *state, uint64_t limit) { return draw(state) % limit; }

uint64_t draw_word(uint64_t *state)
{
    uint64_t kind = draw_below(state, 16), word = draw(state);
    switch (kind) {
    case 0: return 0;
    case 1: return ~(uint64_t)0;
    case 2: return (uint64_t)1 << word % 64;
    case 3: return ~((uint64_t)1 << word % 64);
    case 4: return ((uint64_t)1 << word % 64) - 1;
    case 5: return word % 64;
    case 6: return word & draw(state) & draw(state);
    default: return word;
    }
}

/* Makes each word meet its conditions. */
static void make_legal(const struct condition *conditions, size_t count, const uint64_t *c, uint64_t *words)
{
    for (size_t i = 0; i < count; i++) words[conditions[i].word] = conditions[i].legal(c, words[conditions[i].word]);
}

static void lay_out(struct image *image, const uint64_t *words, size_t count)
{
    memset(image->bytes, FILLER, sizeof image->bytes);
    put_words(image->bytes, words, count);
    image->length = 8 * count;
}

void draw_caps(uint64_t *state, struct image *caps)
{
    uint64_t c[VHART_CAPS_WORDS];
    for (int i = 0; i < VHART_CAPS_WORDS; i++) c[i] = i > VHART_CAPS_FLAGS ? draw_word(state) : draw(state);
    if (draw_below(state, 4) == 0) c[VHART_CAPS_MISA] |= 1 << 18; /* S more often than not */
    if (draw_below(state, 4) == 0) c[VHART_CAPS_HIGHEST] = draw_word(state);
    make_legal(caps_conditions, caps_conditions_count, c, c);
    lay_out(caps, c, VHART_CAPS_WORDS);
}

void draw_bytes(uint64_t *state, uint8_t *bytes, size_t length)
{
    for (size_t i = 0; 8 * i < length; i++) vhart_put(bytes, i, draw_word(state));
}

static void draw_hart(uint64_t *state, const struct image *caps, struct image *hart)
{
    uint64_t c[VHART_CAPS_WORDS], h[VHART_HART_WORDS];
    get_words(c, caps->bytes, VHART_CAPS_WORDS);
    for (int i = 0; i < VHART_HART_WORDS; i++) h[i] = draw_word(state);
    h[VHART_HART_MODE] = draw_below(state, 4);
    make_legal(hart_conditions, hart_conditions_count, c, h);
    lay_out(hart, h, VHART_HART_WORDS);
}

static uint64_t draw_address(uint64_t *state, const uint64_t *c)
{
    for (;;) {
        const struct csrs *run = &csrs[draw_below(state, csrs_count)];
        uint64_t address = run->first + draw_below(state, run->last - run->first + 1);
        if (!is_csr_absent(c, address)) return address;
    }
}

static uint64_t draw_interrupt(uint64_t *state, const uint64_t *c)
{
    uint64_t number = draw_below(state, 16);
    if (c[VHART_CAPS_INTERRUPTS] == 0) return number;
    while ((c[VHART_CAPS_INTERRUPTS] >> number & 1) == 0) number = draw_below(state, 16);
    return number;
}

/* A legal mstatus whose MPP is this mode. */
static uint64_t draw_mstatus(uint64_t *state, const uint64_t *c, uint64_t mode)
{
    return legal_mstatus(c, (draw_word(state) & ~(uint64_t)0x1800) | mode << 11);
}

/* A value to be explained: as often as not what the register holds but for one bit or two. */
static uint64_t draw_value(uint64_t *state, const struct call *call)
{
    uint64_t one = (uint64_t)1 << draw_below(state, BITS), other = (uint64_t)1 << draw_below(state, BITS);
    switch (draw_below(state, 4)) {
    case 0: return held_before(call) ^ one;
    case 1: return held_before(call) ^ one ^ other;
    default: return draw_word(state);
    }
}

static void draw_numbers(uint64_t *state, struct call *call)
{
    uint64_t c[VHART_CAPS_WORDS], *n = call->numbers;
    get_words(c, call->caps.bytes, VHART_CAPS_WORDS);
    for (int i = 0; i < NUMBERS; i++) n[i] = i < entries[call->entry].numbers ? draw_word(state) : 0;
    if (can_give(call->entry, VHART_NO_SUCH_CSR)) n[0] = draw_address(state, c);
    if (can_give(call->entry, VHART_BAD_OPERAND)) {
        n[1] %= 32;
        n[2] %= 32;
    }
    if (can_give(call->entry, VHART_BAD_LINE)) n[line_at(call->entry)] %= 2;
    if (call->entry == INJECT) n[0] = draw_interrupt(state, c);
    if (call->entry == FRESH) n[0] = aligned(c, n[0]);
    if (call->entry == EXPLAIN || call->entry == TALLY) n[1] = draw_value(state, call);
    if (call->entry != TRAP) return;
    n[0] &= ~((uint64_t)1 << 63);
    n[2] = aligned(c, n[2]);
    n[3] &= c[VHART_CAPS_INTERRUPTS];
    n[4] = draw_mstatus(state, c, vhart_get(call->hart.bytes, VHART_HART_MODE));
}

/* Totals with room for what any write adds. */
static void draw_totals(uint64_t *state, vhart_totals *totals)
{
    for (int i = 0; i < TOTALS; i++) put_total(totals, i, (uint32_t)(draw_word(state) % (UINT32_MAX - BITS + 1)));
}

/* An entry that makes a good call, or less often one in which a word is another, or the address
 * that of a CSR that the board may lack. */
static void draw_entry(uint64_t *state, struct call *call, uint8_t *entry)
{
    uint64_t kind = draw_below(state, KINDS), change = draw_below(state, 12);
    call->entry = kinds[kind].entry;
    draw_numbers(state, call);
    vhart_put(entry, 0, kind);
    for (int i = 0; i < 2; i++) vhart_put(entry, (size_t)i + 1, i < kinds[kind].words ? call->numbers[i] : 0);
    if (change < 3) vhart_put(entry, (size_t)change, draw_word(state));
    if (change == 3) entry[draw_below(state, ENTRY)] ^= (uint8_t)(1 << draw_below(state, 8));
    if (change == 4 && kinds[kind].words > 0) vhart_put(entry, 1, csrs[draw_below(state, csrs_count)].last);
}

void draw_entries(uint64_t *state, const struct call *call, uint8_t *log, size_t count)
{
    struct call one = *call;
    for (size_t i = 0; i < count; i++) draw_entry(state, &one, log + ENTRY * i);
}

/* Waiting bytes of which none are used, but others stand there. */
static void draw_wait(uint64_t *state, struct image *wait)
{
    memset(wait->bytes, FILLER, sizeof wait->bytes);
    draw_bytes(state, wait->bytes, ENTRY);
    wait->bytes[0] = 0;
    wait->length = ENTRY;
}

/* A log, the first bytes of which may wait; behind what is used of it stand other bytes. */
static void draw_log(uint64_t *state, struct call *call)
{
    uint8_t log[LONGEST_LOG + 1];
    size_t waiting = draw_below(state, ENTRY);
    draw_entries(state, call, log, sizeof log / ENTRY);
    call->wait.bytes[0] = (uint8_t)waiting;
    memcpy(call->wait.bytes + 1, log, waiting);
    memcpy(call->fragment.bytes, log + waiting, LONGEST);
    call->fragment.length = draw_below(state, draw_below(state, 2) == 0 ? LONGEST + 1 : 3 * ENTRY);
    size_t needed = ENTRY * entries_completed(call);
    draw_bytes(state, call->out.bytes, LONGEST);
    call->out.length = needed + draw_below(state, draw_below(state, 2) == 0 ? LONGEST - needed + 1 : 1);
}

static void draw_file(uint64_t *state, struct call *call)
{
    memset(call->numbers, 0, sizeof call->numbers);
    memset(call->hart.bytes, FILLER, sizeof call->hart.bytes);
    call->hart.length = VHART_SETTINGS_BYTES;
    if (call->entry == SETTINGS_READ) put_settings(call->hart.bytes, call->caps.bytes);
    else draw_bytes(state, call->hart.bytes, VHART_SETTINGS_BYTES);
}

void draw_rest(uint64_t *state, enum entry entry, struct call *call)
{
    call->entry = entry;
    memset(&call->totals, 0, sizeof call->totals);
    call->wait.length = call->fragment.length = call->out.length = 0;
    if (entry == TALLY) draw_totals(state, &call->totals);
    if (is_on_file(entry)) {
        draw_file(state, call);
        return;
    }
    draw_hart(state, &call->caps, &call->hart);
    if (entry == FRESH && draw_below(state, 2) == 0) draw_bytes(state, call->hart.bytes, VHART_HART_BYTES);
    if (can_give(entry, VHART_NOT_MACHINE)) vhart_put(call->hart.bytes, VHART_HART_MODE, VHART_MODE_M);
    draw_numbers(state, call);
    if (is_on_log(entry)) draw_wait(state, &call->wait);
    if (entry == REPLAY) draw_log(state, call);
}

void draw_call(uint64_t *state, enum entry entry, struct call *call)
{
    draw_caps(state, &call->caps);
    draw_rest(state, entry, call);
}
