/* damage.c: bad input at scale through the entries: damage [--calls N] [--seed S] [--exact]
 * [--sample K]
 *
 * Each call starts from a legal one, drawn at random, and is damaged: every length, each bit of
 * the images, the settings file and numbers flipped alone, each pair of conditions of legality
 * broken, each refusal and pair of refusals made to apply, alone and with each condition broken,
 * every address, every version of a settings file, every byte before its image, values that differ
 * in each bit from what a CSR holds, totals at their limit and near it, call logs cut anywhere and
 * with too little room for what they give, huge numbers, random bytes. What is legal and what is
 * owed is asked of table.c, log.c and lost.c, and check.c and cuts.c compare what came back with
 * that. The systematic part is a round, each call of it on a board of its own, or each log where it
 * is cut; rounds go on, each with as many random calls, until N calls (10,000,000) have been made.
 * A round is the least. A seed gives the same calls. With --sample a round has one of K of its
 * calls, and needn't reach all.
 *
 * What is lent stands between guard bytes, or with --exact in blocks that end where it ends, for
 * valgrind to see what is read behind it. Prints what each entry gave, how often each condition was
 * broken alone, how many bits were lost for each reason, how often each total alone was full, how
 * often a log was cut, and `N calls, 0 wrong`; the status is 0 only then. */
#include "check.h"
#include "cuts.h"
#include "images.h"
#include "legal.h"

#include <inttypes.h>
#include <stdio.h>
#include <stdlib.h>
#include <string.h>

#define MOST_SHOWN 5   /* wrong calls, after which it stops */
#define BOARDS 20      /* tried for what not every board allows */
#define TRIES 100      /* at numbers to which a refusal applies */
#define REPEATS 64     /* of each refusal and pair of refusals, and of none, on legal images */
#define A_LINE 1000000 /* calls, for each line of progress */
#define HEAD 6         /* bytes of a settings file before its image */
#define LOGS 30        /* long ones, of each round */
#define FRAGMENTS 500  /* of a long one, at most, before the last */

#define BIT(n) ((uint64_t)1 << (n))
#define ALL (~(uint64_t)0)

static uint64_t calls_wanted = 10000000, seed = 1, sample = 1;
static int is_exact;

static uint64_t calls, wrong;
static uint64_t given[ENTRIES][REFUSALS]; /* how often each entry gave each refusal */
static uint64_t lost[REASONS];            /* how many bits were lost for each reason */
static uint64_t full[TOTALS];             /* how often each total alone gave refusal 16 */
static struct entered entered;            /* what entries of a log gave */
static uint64_t cuts;                     /* how often a log was cut */

/* ---- one call */

static struct place draw_place(void)
{
    uint64_t offs = draw(&seed);
    size_t guard = is_exact ? 0 : GUARD;
    struct place place = {guard + 1 + offs % 16,
                          guard + 1 + offs / 16 % 16,
                          guard + 4 * (offs / 256 % 4),
                          guard + offs / 1024 % 16,
                          guard + offs / 16384 % 16,
                          guard + offs / 262144 % 16,
                          guard};
    return place;
}

static void count_wrong(void)
{
    printf("  which was call %" PRIu64 "\n", calls);
    if (++wrong < MOST_SHOWN) return;
    printf("%" PRIu64 " calls, %" PRIu64 " wrong\n", calls, wrong);
    exit(1);
}

/* Makes the call, and gives its refusal. */
static uint64_t make(const struct call *call)
{
    struct verdict verdict = check_call(call, draw_place());
    if (++calls % A_LINE == 0) fprintf(stderr, "%" PRIu64 " of %" PRIu64 " calls\n", calls, calls_wanted);
    if (verdict.came < REFUSALS) given[call->entry][verdict.came]++;
    for (int kind = 0; kind <= KINDS; kind++) entered.refusals[kind] |= verdict.entered.refusals[kind];
    for (int i = 0; i < BITS && verdict.reasons[i] != 0; i++) {
        if (verdict.reasons[i] < REASONS) lost[verdict.reasons[i]]++;
    }
    if (!verdict.is_right) count_wrong();
    return verdict.came;
}

/* ---- the conditions of legality */

#define MOST_CONDITIONS 100

/* A condition of either image, by its number: the capabilities' stand before the hart's. */
static size_t conditions_count(void) { return caps_conditions_count + hart_conditions_count; }

static int is_of_caps(size_t i) { return i < caps_conditions_count; }

static const struct condition *condition_at(size_t i)
{
    return is_of_caps(i) ? &caps_conditions[i] : &hart_conditions[i - caps_conditions_count];
}

/* How many of them an entry's images can break: a settings file has the capabilities' alone. */
static size_t conditions_of(enum entry entry)
{
    return is_on_file(entry) ? caps_conditions_count : conditions_count();
}

static uint64_t alone[MOST_CONDITIONS]; /* how often each was broken with no other */
static uint64_t pairs;                  /* how often two were broken together */

/* The words of a call's images, of their right lengths. */
struct words {
    uint64_t c[VHART_CAPS_WORDS], h[VHART_HART_WORDS];
};

static struct words words_of(const struct call *call)
{
    struct words words;
    get_words(words.c, call->caps.bytes, VHART_CAPS_WORDS);
    get_words(words.h, call->hart.bytes, VHART_HART_WORDS);
    return words;
}

static int is_met_by(size_t i, const struct words *words)
{
    return is_met(condition_at(i), words->c, is_of_caps(i) ? words->c : words->h);
}

/* Counts the condition that the call breaks, if it is one. */
static void count_alone(const struct call *call)
{
    struct words words = words_of(call);
    size_t broken = 0, last = 0;
    for (size_t i = 0; i < conditions_count(); i++) {
        if (is_met_by(i, &words)) continue;
        broken++;
        last = i;
    }
    if (broken == 1) alone[last]++;
}

/* Breaks the condition, if the call's board allows that: by another word in its word's place, or
 * by a bit flipped. */
static int break_condition(size_t i, struct call *call)
{
    struct words words = words_of(call);
    size_t place = condition_at(i)->word;
    uint64_t *word = &(is_of_caps(i) ? words.c : words.h)[place];
    uint64_t was = *word, first = draw_below(&seed, 64);
    *word = draw_word(&seed);
    if (draw_below(&seed, 2) == 0 || is_met_by(i, &words)) {
        uint64_t n = 0;
        do *word = was ^ BIT((first + n) % 64);
        while (is_met_by(i, &words) && ++n < 64);
        if (n == 64) return 0;
    }
    vhart_put(is_of_caps(i) ? call->caps.bytes : call->hart.bytes, place, *word);
    if (call->entry == SETTINGS_READ) vhart_put(call->hart.bytes + HEAD, place, *word); /* and in its file */
    return 1;
}

/* A length other than the right one, as often as not near it. */
static size_t other_length(size_t right)
{
    size_t other = draw_below(&seed, 2) == 0 ? right - 8 + draw_below(&seed, 17) : draw_below(&seed, LONGEST + 1);
    return other == right ? right + 1 : other;
}

/* ---- the refusals from 3 on */

/* Changes a settings file: its length, a byte before its image, its version, or a bit. */
static void change_file(struct image *file)
{
    switch (draw_below(&seed, 6)) {
    case 0: file->length = other_length(VHART_SETTINGS_BYTES); break;
    case 1: file->length = draw_below(&seed, HEAD); break;
    case 2: file->bytes[3] = (uint8_t)draw(&seed); break;
    case 3: file->bytes[4] = (uint8_t)draw(&seed); break;
    case 4: file->bytes[draw_below(&seed, HEAD)] ^= (uint8_t)BIT(draw_below(&seed, 8)); break;
    default: file->bytes[draw_below(&seed, VHART_SETTINGS_BYTES)] ^= (uint8_t)BIT(draw_below(&seed, 8));
    }
}

/* Puts one of the totals anywhere, and as often as not to its limit or just below. */
static void change_total(vhart_totals *totals)
{
    uint64_t value = draw_below(&seed, 2) == 0 ? UINT32_MAX - draw_below(&seed, 4) : draw(&seed);
    put_total(totals, (int)draw_below(&seed, TOTALS), (uint32_t)value);
}

/* Changes how many bytes wait; or of replay the length of what it is lent, or a bit of it. */
static void change_log(struct call *call)
{
    struct image *const runs[] = {&call->wait, &call->fragment, &call->out}, *run = runs[draw_below(&seed, 3)];
    size_t place = draw_below(&seed, LONGEST);
    switch (draw_below(&seed, call->entry == REPLAY ? 6 : 2)) {
    case 0: call->wait.bytes[0] = (uint8_t)draw(&seed); break;
    case 1: call->wait.bytes[0] = (uint8_t)draw_below(&seed, ENTRY + 1); break;
    case 2: call->out.length = ENTRY * draw_below(&seed, LONGEST / ENTRY) + ENTRY - 1; break;
    case 3: run->length = draw_below(&seed, LONGEST + 1); break;
    case 4: run->length = draw_below(&seed, 2 * ENTRY + 2); break;
    default: run->bytes[place % (run->length + 1)] ^= (uint8_t)BIT(draw_below(&seed, 8));
    }
}

/* Changes one of the call's numbers, or its mode to another that its board has; or its file, its
 * log, or one of its totals. */
static void change_one(struct call *call)
{
    if (is_on_file(call->entry)) {
        change_file(&call->hart);
        return;
    }
    if (is_on_log(call->entry)) {
        change_log(call);
        return;
    }
    if (call->entry == TALLY && draw_below(&seed, 2) == 0) {
        change_total(&call->totals);
        return;
    }
    int count = entries[call->entry].numbers, place = (int)draw_below(&seed, (uint64_t)count + 1);
    uint64_t *number = &call->numbers[place];
    if (place == count) {
        vhart_put(call->hart.bytes, VHART_HART_MODE, draw_below(&seed, 4));
        return;
    }
    switch (draw_below(&seed, 6)) {
    case 0: *number ^= BIT(draw_below(&seed, 64)); break;
    case 1: *number ^= BIT(draw_below(&seed, 4)); break;
    case 2: *number ^= BIT(11 + draw_below(&seed, 2)); break; /* of mstatus MPP */
    case 3: *number = draw_below(&seed, 0x1000); break;
    case 4: *number = csrs[draw_below(&seed, csrs_count)].last; break;
    default: *number = draw_word(&seed);
    }
}

/* Changes the legal call until all of these apply, as bits of their numbers, and no other. */
static int make_apply(struct call *call, unsigned refusals)
{
    unsigned apply = refusals_applying(call);
    for (int tries = 0; tries < TRIES && (apply & refusals) != refusals; tries++) {
        struct call changed = *call;
        change_one(&changed);
        unsigned now = refusals_applying(&changed);
        int is_nearer = (now & apply) == apply && (now & refusals) != (apply & refusals);
        if (!is_nearer || (now & ~(apply | refusals)) != 0) continue;
        *call = changed;
        apply = now;
    }
    return (apply & refusals) == refusals;
}

/* ---- the systematic part */

/* Whether the next call of a round isn't in the sample. */
static int is_left_out(void) { return draw_below(&seed, sample) != 0; }

/* Every length of each image, singly and both together. */
static void try_lengths(enum entry entry)
{
    struct call call;
    for (size_t length = 0; length <= LONGEST; length++) {
        if (is_left_out()) continue;
        draw_call(&seed, entry, &call);
        call.caps.length = length;
        make(&call);
        call.hart.length = length;
        make(&call);
        call.caps.length = VHART_CAPS_BYTES;
        make(&call);
    }
}

/* Each bit of an image or a file flipped. */
static void try_bits(enum entry entry, int of_caps)
{
    struct call call;
    uint64_t bytes = is_on_file(entry) ? VHART_SETTINGS_BYTES : VHART_HART_BYTES;
    for (uint64_t n = 0; n < 8 * (of_caps ? VHART_CAPS_BYTES : bytes); n++) {
        if (is_left_out()) continue;
        draw_call(&seed, entry, &call);
        (of_caps ? call.caps.bytes : call.hart.bytes)[n / 8] ^= (uint8_t)BIT(n % 8);
        if (!is_on_file(entry) && (of_caps || tests_record(entry))) count_alone(&call);
        make(&call);
    }
}

/* Two conditions broken together, on a board that allows it, if one comes. */
static void try_pair(enum entry entry, size_t i, size_t k)
{
    struct call call;
    for (int boards = 0; boards < BOARDS; boards++) {
        draw_call(&seed, entry, &call);
        if (!break_condition(i, &call) || !break_condition(k, &call)) continue;
        make(&call);
        pairs++;
        return;
    }
}

/* A call to which these refusals apply, and in which a condition is broken, if there is one. */
static void try_applying(enum entry entry, unsigned refusals, size_t condition)
{
    struct call call;
    for (int boards = 0; boards < BOARDS; boards++) {
        draw_call(&seed, entry, &call);
        if (!make_apply(&call, refusals)) continue;
        if (condition < conditions_of(entry) && !break_condition(condition, &call)) continue;
        make(&call);
        return;
    }
}

/* These refusals: with each condition broken, and on legal images. */
static void try_refusals(enum entry entry, unsigned refusals)
{
    for (size_t i = 0; i < conditions_of(entry) + REPEATS; i++) {
        if (!is_left_out()) try_applying(entry, refusals, i);
    }
}

/* None, each of the entry's refusals, and each pair. */
static void try_each_refusal(enum entry entry)
{
    try_refusals(entry, 0);
    for (unsigned first = VHART_BAD_HART + 1; first < REFUSALS; first++) {
        if (!can_give(entry, first)) continue;
        try_refusals(entry, 1u << first);
        for (unsigned second = first + 1; second < REFUSALS; second++) {
            if (can_give(entry, second)) try_refusals(entry, 1u << first | 1u << second);
        }
    }
}

/* Every address that there can be, and for other entries as many numbers. */
static void try_addresses(enum entry entry)
{
    struct call call;
    for (uint64_t address = 0; address < 0x1000 && entries[entry].numbers > 0; address++) {
        if (is_left_out()) continue;
        draw_call(&seed, entry, &call);
        call.numbers[0] = address;
        make(&call);
    }
}

/* Each number of a good call made huge, and with each of its bits flipped. */
static void try_huge(enum entry entry)
{
    static const uint64_t huge[] = {ALL, ALL - 1, BIT(63), BIT(63) - 1, BIT(63) + 1, BIT(32), BIT(32) - 1, BIT(31),
                                    BIT(16), 0x1000,  0xFFF,   1024,        256,         64,      63,          32};
    struct call call;
    for (int i = 0; i < entries[entry].numbers; i++) {
        for (size_t k = 0; k < sizeof huge / sizeof huge[0]; k++) {
            draw_call(&seed, entry, &call);
            call.numbers[i] = huge[k];
            make(&call);
        }
        for (int n = 0; n < 64; n++) {
            draw_call(&seed, entry, &call);
            call.numbers[i] ^= BIT(n);
            make(&call);
        }
    }
}

/* Every value of each byte before a file's image: in a whole file, in one of another length, and in
 * one that ends before the image. */
static void try_head(void)
{
    struct call call;
    for (size_t n = 0; n < 256 * HEAD; n++) {
        if (is_left_out()) continue;
        draw_call(&seed, SETTINGS_READ, &call);
        call.hart.bytes[n / 256] = (uint8_t)n;
        make(&call);
        call.hart.length = other_length(VHART_SETTINGS_BYTES);
        make(&call);
        call.hart.length = draw_below(&seed, HEAD);
        make(&call);
    }
}

/* Counts the write with each total that it adds to just brought to its limit, and then past it. All
 * that it adds nothing to are full. */
static void try_limits(struct call call)
{
    uint64_t added[TOTALS];
    call.entry = TALLY;
    add_up(&call, added);
    for (int i = 0; i < TOTALS; i++) put_total(&call.totals, i, added[i] == 0 ? UINT32_MAX : (uint32_t)draw(&seed) / 2);
    for (int i = 0; i < TOTALS; i++) {
        if (added[i] == 0) continue;
        uint32_t was = get_total(&call.totals, i), room = (uint32_t)draw_below(&seed, added[i]);
        put_total(&call.totals, i, (uint32_t)(UINT32_MAX - added[i]));
        make(&call);
        put_total(&call.totals, i, UINT32_MAX - room);
        if (make(&call) == VHART_TOTAL_FULL) full[i]++;
        put_total(&call.totals, i, was);
    }
}

/* Of what a CSR holds each bit flipped alone, and all but that one, in a value to be explained and
 * counted. */
static void try_values(void)
{
    struct call call;
    for (size_t i = 0; i < csrs_count; i++) {
        for (int n = 0; n < BITS; n++) {
            if (is_left_out()) continue;
            draw_call(&seed, EXPLAIN, &call);
            call.numbers[0] = csrs[i].first + draw_below(&seed, csrs[i].last - csrs[i].first + 1);
            call.numbers[1] = held_before(&call) ^ BIT(n);
            make(&call);
            try_limits(call);
            call.numbers[1] = ~call.numbers[1];
            make(&call);
            try_limits(call);
        }
    }
}

/* Every length of the waiting bytes, and each of their bits flipped. */
static void try_waiting(enum entry entry)
{
    struct call call;
    for (size_t length = 0; length <= LONGEST; length++) {
        if (is_left_out()) continue;
        draw_call(&seed, entry, &call);
        call.wait.length = length;
        make(&call);
    }
    for (size_t n = 0; n < 8 * ENTRY; n++) {
        if (is_left_out()) continue;
        draw_call(&seed, entry, &call);
        call.wait.bytes[n / 8] ^= (uint8_t)BIT(n % 8);
        make(&call);
    }
}

/* Every length of a fragment and of out, and each bit of the first four entries flipped. */
static void try_fragments(void)
{
    struct call call;
    for (size_t length = 0; length <= LONGEST; length++) {
        if (is_left_out()) continue;
        draw_call(&seed, REPLAY, &call);
        call.out.length = length;
        make(&call);
        call.fragment.length = length;
        call.out.length = LONGEST;
        make(&call);
    }
    for (size_t n = 0; n < 8 * 4 * ENTRY; n++) {
        if (is_left_out()) continue;
        draw_call(&seed, REPLAY, &call);
        call.fragment.bytes[n / 8] ^= (uint8_t)BIT(n % 8);
        call.fragment.length = call.out.length = LONGEST;
        make(&call);
    }
}

/* Every count in the first of the waiting bytes, and to each the fragments that complete up to four
 * entries: with just the room that is needed, and with a byte less. */
static void try_room(void)
{
    struct call call;
    for (size_t n = 0; n < 256 * 4 * ENTRY; n++) {
        if (n / (4 * ENTRY) > ENTRY && n % (4 * ENTRY) >= 4) continue; /* too many wait, whatever comes */
        if (is_left_out()) continue;
        draw_call(&seed, REPLAY, &call);
        call.wait.bytes[0] = (uint8_t)(n / (4 * ENTRY));
        call.fragment.length = n % (4 * ENTRY);
        call.out.length = ENTRY * entries_completed(&call);
        make(&call);
        if (call.out.length == 0) continue;
        call.out.length--;
        make(&call);
        call.entry = REPLAY_END;
        make(&call);
    }
}

/* Replays the log in these fragments. */
static void try_cut(const struct cut *cut, const size_t *ends, size_t count)
{
    calls += count + 2;
    cuts++;
    if (!is_cut_right(cut, ends, count)) count_wrong();
}

/* For each kind a log of three entries and a part of one, in which such an entry is done and
 * another one refused: with each pair of cuts. */
static void try_pairs_of_cuts(void)
{
    static struct cut cut;
    for (uint64_t kind = 0; kind < KINDS; kind++) {
        do if (!draw_cut(&seed, 3 * ENTRY + draw_below(&seed, ENTRY), &cut)) count_wrong();
        while (!has_both(&cut, kind));
        for (size_t n = 0; n < (cut.length + 1) * (cut.length + 1); n++) {
            const size_t ends[] = {n / (cut.length + 1), n % (cut.length + 1)};
            if (ends[0] <= ends[1] && !is_left_out()) try_cut(&cut, ends, 2);
        }
    }
}

/* Long logs, cut anywhere into fragments of up to a few bytes, some entries, or many. */
static void try_long_logs(void)
{
    static const size_t longest[] = {3, 2 * ENTRY, 40 * ENTRY};
    static struct cut cut;
    size_t ends[FRAGMENTS];
    for (int n = 0; n < LOGS; n++) {
        if (is_left_out()) continue;
        size_t count = 0, end = 0;
        if (!draw_cut(&seed, draw_below(&seed, LONGEST_CUT + 1), &cut)) count_wrong();
        while (count < FRAGMENTS && (end += draw_below(&seed, longest[n % 3] + 1)) <= cut.length) ends[count++] = end;
        try_cut(&cut, ends, count);
    }
}

static void try_systematically(void)
{
    for (int i = 0; i < ENTRIES; i++) {
        enum entry entry = (enum entry)i;
        try_lengths(entry);
        try_bits(entry, 1);
        try_bits(entry, 0);
        for (size_t k = 0; k < conditions_of(entry); k++) {
            for (size_t other = k + 1; other < conditions_of(entry); other++) {
                if (!is_left_out()) try_pair(entry, k, other);
            }
        }
        try_each_refusal(entry);
        try_addresses(entry);
        try_huge(entry);
    }
    try_head();
    try_values();
    try_waiting(REPLAY);
    try_waiting(REPLAY_END);
    try_fragments();
    try_room();
    try_pairs_of_cuts();
    try_long_logs();
}

/* Every version of a settings file. They are many: so they come once and not in each round, and a
 * sample has one of K times K. */
static void try_versions(void)
{
    struct call call;
    for (unsigned version = 0; version < 0x10000; version++) {
        if (is_left_out() || is_left_out()) continue;
        draw_call(&seed, SETTINGS_READ, &call);
        call.hart.bytes[3] = (uint8_t)version;
        call.hart.bytes[4] = (uint8_t)(version >> 8);
        make(&call);
    }
}

/* ---- the random part */

static void flip_bits(struct image *image)
{
    for (uint64_t left = 1 + draw_below(&seed, 3); left > 0; left--) {
        uint64_t n = draw_below(&seed, 8 * image->length);
        image->bytes[n / 8] ^= (uint8_t)BIT(n % 8);
    }
}

/* Damages an image or a file, or more often leaves it. */
static void damage_image(struct image *image)
{
    if (image->length < 8) return; /* a file that is cut already */
    size_t word = draw_below(&seed, image->length / 8);
    switch (draw_below(&seed, 24)) {
    case 0: draw_bytes(&seed, image->bytes, image->length); break;
    case 1: vhart_put(image->bytes, word, draw_word(&seed)); break;
    case 2: image->length = other_length(image->length); break;
    case 3: memset(image->bytes, draw_below(&seed, 2) == 0 ? 0 : 0xFF, image->length); break;
    case 4:
    case 5:
    case 6: flip_bits(image); break;
    default: break;
    }
}

static void try_at_random(void)
{
    struct call call;
    draw_call(&seed, (enum entry)draw_below(&seed, ENTRIES), &call);
    if (draw_below(&seed, 2) == 0) change_one(&call);
    if (draw_below(&seed, 6) == 0) break_condition(draw_below(&seed, conditions_of(call.entry)), &call);
    damage_image(&call.caps);
    damage_image(&call.hart);
    if (is_on_log(call.entry)) damage_image(&call.wait);
    make(&call);
}

/* ---- the program */

/* Whether each entry gave each refusal that it can give, and no other; says which not. */
static int is_each_reached(void)
{
    int is_each = 1;
    for (int i = 0; i < ENTRIES; i++) {
        for (uint64_t refusal = 0; refusal < REFUSALS; refusal++) {
            int can = can_give((enum entry)i, refusal);
            if (can == (given[i][refusal] != 0)) continue;
            printf("vhart_%s %s %" PRIu64 "\n", entries[i].name, can ? "never gave" : "gave", refusal);
            is_each = 0;
        }
    }
    return is_each;
}

/* Whether an entry of this kind, or of none, can give this refusal: 17 where it has a word that
 * must be 0, and those of its call on legal images, with line 0. */
static int can_enter(int kind, uint64_t refusal)
{
    if (refusal == VHART_BAD_ENTRY) return kind == KINDS || kinds[kind].words < 2;
    if (refusal == VHART_BAD_CAPS || refusal == VHART_BAD_HART || refusal == VHART_BAD_LINE) return 0;
    return kind < KINDS && can_give(kinds[kind].entry, refusal);
}

/* Whether entries of each kind gave each refusal that they can give, and no other; says which
 * not. */
static int is_each_entered(void)
{
    int is_each = 1;
    for (int kind = 0; kind <= KINDS; kind++) {
        for (uint64_t refusal = 0; refusal < REFUSALS; refusal++) {
            int can = can_enter(kind, refusal);
            if (can == (int)(entered.refusals[kind] >> refusal & 1)) continue;
            printf("an entry of kind %d %s %" PRIu64 "\n", kind, can ? "never gave" : "gave", refusal);
            is_each = 0;
        }
    }
    return is_each;
}

/* Whether each condition was broken alone; says which not. */
static int is_each_broken(void)
{
    int is_each = 1;
    for (size_t i = 0; i < conditions_count(); i++) {
        if (alone[i] != 0) continue;
        printf("'%s' was never broken alone\n", condition_at(i)->name);
        is_each = 0;
    }
    return is_each;
}

/* Whether bits were lost for each reason; says for which not. */
static int is_each_given(void)
{
    int is_each = 1;
    for (int reason = 1; reason < REASONS; reason++) {
        if (lost[reason] != 0) continue;
        printf("no bit was lost for reason %d\n", reason);
        is_each = 0;
    }
    return is_each;
}

/* Whether each total was full alone; says which not. */
static int is_each_full(void)
{
    int is_each = 1;
    for (int i = 0; i < TOTALS; i++) {
        if (full[i] != 0) continue;
        printf("%s was never full alone\n", total_names[i]);
        is_each = 0;
    }
    return is_each;
}

/* Whether some call can give this number: 17 is given to entries of a log alone. */
static int is_refusal(uint64_t refusal)
{
    int is_any = 0;
    for (int i = 0; i < ENTRIES; i++) is_any |= can_give((enum entry)i, refusal);
    return is_any;
}

static void report_given(void)
{
    printf("%-14s%8s", "", "done");
    for (int refusal = 1; refusal < REFUSALS; refusal++) {
        if (is_refusal((uint64_t)refusal)) printf("%8d", refusal);
    }
    printf("\n");
    for (int i = 0; i < ENTRIES; i++) {
        printf("%-14s", entries[i].name);
        for (int refusal = 0; refusal < REFUSALS; refusal++) {
            if (given[i][refusal] != 0) printf("%8" PRIu64, given[i][refusal]);
            else if (is_refusal((uint64_t)refusal)) printf("%8s", ".");
        }
        printf("\n");
    }
}

static void report_alone(void)
{
    printf("broken in pairs %" PRIu64 " times, and alone:", pairs);
    for (size_t i = 0; i < conditions_count(); i++) {
        printf("%s%-26s %8" PRIu64, i % 3 == 0 ? "\n  " : "   ", condition_at(i)->name, alone[i]);
    }
    printf("\n");
}

static void report_lost(void)
{
    printf("bits lost for reasons 1 to %d:", REASONS - 1);
    for (int reason = 1; reason < REASONS; reason++) printf(" %" PRIu64, lost[reason]);
    printf("\n");
}

static void report_full(void)
{
    printf("totals full alone:");
    for (int i = 0; i < TOTALS; i++) printf(" %s %" PRIu64, total_names[i], full[i]);
    printf("\n");
}

static uint64_t number(const char *text)
{
    char *end;
    uint64_t value = strtoull(text, &end, 0);
    if (*text < '0' || *text > '9' || *end != '\0') {
        fprintf(stderr, "not a number: %s\n", text);
        exit(2);
    }
    return value;
}

static void read_options(int argc, char **argv)
{
    for (int i = 1; i < argc; i++) {
        if (strcmp(argv[i], "--exact") == 0) {
            is_exact = 1;
        } else if (strcmp(argv[i], "--calls") == 0 && i + 1 < argc) {
            calls_wanted = number(argv[++i]);
        } else if (strcmp(argv[i], "--seed") == 0 && i + 1 < argc) {
            seed = number(argv[++i]);
        } else if (strcmp(argv[i], "--sample") == 0 && i + 1 < argc) {
            sample = number(argv[++i]);
        } else {
            fprintf(stderr, "usage: damage [--calls N] [--seed S] [--exact] [--sample K]\n");
            exit(2);
        }
    }
}

int main(int argc, char **argv)
{
    uint64_t round;
    read_options(argc, argv);
    try_versions();
    do {
        uint64_t before = calls;
        try_systematically();
        round = calls - before;
        for (uint64_t left = round; left > 0 && calls < calls_wanted; left--) try_at_random();
    } while (calls + 2 * round < calls_wanted);
    while (calls < calls_wanted) try_at_random();
    report_given();
    report_alone();
    report_lost();
    report_full();
    printf("logs cut: %" PRIu64 "\n", cuts);
    int is_whole = sample != 1 || (is_each_reached() & is_each_entered() & is_each_broken() & is_each_given() &
                                   is_each_full());
    printf("%" PRIu64 " calls, %" PRIu64 " wrong\n", calls, wrong);
    return wrong != 0 || !is_whole;
}
