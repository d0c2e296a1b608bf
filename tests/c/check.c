/* check.c: one call between guards, and all that must hold when it has come back. */
#include "check.h"

#include "images.h"

#include <stdio.h>
#include <stdlib.h>
#include <string.h>

/* A block that an image, totals or bytes are lent in, and all that a call is lent. */
struct block {
    uint8_t *bytes;
    size_t before, length, behind;
};
struct blocks {
    struct block caps, hart, totals, wait, fragment, out;
};

static uint8_t guard_at(size_t i) { return (uint8_t)(0xC3 ^ i * 29); }

static struct block lend(const void *bytes, size_t length, size_t before, size_t behind)
{
    struct block block = {malloc(before + length + behind), before, length, behind};
    if (block.bytes == NULL) {
        fprintf(stderr, "no memory\n");
        exit(2);
    }
    for (size_t i = 0; i < before; i++) block.bytes[i] = guard_at(i);
    memcpy(block.bytes + before, bytes, length);
    for (size_t i = before + length; i < before + length + behind; i++) block.bytes[i] = guard_at(i);
    return block;
}

static int are_guards_whole(const struct block *block)
{
    size_t end = block->before + block->length, i;
    for (i = 0; i < block->before && block->bytes[i] == guard_at(i); i++) continue;
    if (i < block->before) return 0;
    for (i = end; i < end + block->behind && block->bytes[i] == guard_at(i); i++) continue;
    return i == end + block->behind;
}

static uint8_t *start_of(const struct block *block) { return block->bytes + block->before; }

static int is_same(const struct block *block, const void *bytes)
{
    return memcmp(start_of(block), bytes, block->length) == 0;
}

static int is_record_legal(const struct call *call, const uint8_t *record)
{
    uint64_t c[VHART_CAPS_WORDS], h[VHART_HART_WORDS];
    get_words(c, call->caps.bytes, VHART_CAPS_WORDS);
    get_words(h, record, VHART_HART_WORDS);
    return illegal_word_of_hart(c, h) == VHART_HART_WORDS;
}

void print_bytes(const char *what, const uint8_t *bytes, size_t length)
{
    printf("  %s, %lu bytes:", what, (unsigned long)length);
    for (size_t i = 0; i < length; i++) printf(" %02x", bytes[i]);
    printf("\n");
}

static void print_image(const char *kind, const struct image *image, const char *const *words, size_t count)
{
    printf("  %s, %lu bytes:", kind, (unsigned long)image->length);
    for (size_t i = 0; 8 * i < image->length; i++) {
        uint8_t bytes[8] = {0};
        size_t left = image->length - 8 * i;
        memcpy(bytes, image->bytes + 8 * i, left < 8 ? left : 8);
        uint64_t word = vhart_get(bytes, 0);
        if (word == 0) continue;
        if (i < count) printf(" %s=0x%llx", words[i], (unsigned long long)word);
        else printf(" +%lu=0x%llx", 8 * (unsigned long)i, (unsigned long long)word);
    }
    printf("\n");
}

static void print_totals(const char *whose, const vhart_totals *totals)
{
    printf("  %s:", whose);
    for (int i = 0; i < TOTALS; i++) printf(" %s=%lu", total_names[i], (unsigned long)get_total(totals, i));
    printf("\n");
}

void print_call(const struct call *call)
{
    printf("  numbers:");
    for (int i = 0; i < entries[call->entry].numbers; i++) printf(" 0x%llx", (unsigned long long)call->numbers[i]);
    printf("\n");
    print_image("caps", &call->caps, caps_words, VHART_CAPS_WORDS);
    if (is_on_file(call->entry)) print_bytes("file", call->hart.bytes, call->hart.length);
    else print_image("hart", &call->hart, hart_words, VHART_HART_WORDS);
    if (call->entry == TALLY) print_totals("totals", &call->totals);
    if (is_on_log(call->entry)) print_bytes("wait", call->wait.bytes, call->wait.length);
    if (call->entry != REPLAY) return;
    print_bytes("fragment", call->fragment.bytes, call->fragment.length);
    print_bytes("out", call->out.bytes, call->out.length);
}

/* Prints both lists, each bit with its reason. */
static void print_lists(const char *whose, const uint8_t *bits, const uint8_t *reasons)
{
    int last = BITS;
    while (last > 0 && bits[last - 1] == 0 && reasons[last - 1] == 0) last--;
    printf("  %s:", whose);
    for (int i = 0; i < last; i++) printf(" %d:%d", bits[i], reasons[i]);
    printf("\n");
}

/* What is wrong with what a check gave, or null. */
static const char *wrong_in_fault(const struct call *call, const struct given *came)
{
    vhart_fault owed = fault_owed(call);
    if (came->answer != owed.word) return "the word isn't the table's";
    if (came->effect != owed.value) return "the value isn't the word's";
    return NULL;
}

static const char *wrong_in_words(const struct call *call, const struct given *came)
{
    uint64_t owed[VHART_CAPS_WORDS];
    words_owed(call, owed);
    if (memcmp(came->words, owed, sizeof owed) == 0) return NULL;
    return came->refusal != 0 ? "a refusal has words" : "the words aren't the file's";
}

/* What is wrong with a file that was written, or null. Read again it gives the capabilities. */
static const char *wrong_in_file(const struct call *call, const struct block *file)
{
    uint8_t owed[VHART_SETTINGS_BYTES];
    uint64_t c[VHART_CAPS_WORDS];
    put_settings(owed, call->caps.bytes);
    get_words(c, call->caps.bytes, VHART_CAPS_WORDS);
    if (memcmp(start_of(file), owed, sizeof owed) != 0) return "a byte of the file isn't the format's";
    struct given back = call_entry(SETTINGS_READ, call->numbers, call->caps.bytes, call->caps.length,
                                   start_of(file), file->length, NULL);
    if (back.refusal != 0 || memcmp(back.words, c, sizeof c) != 0) return "what was written isn't read back";
    return NULL;
}

/* What is wrong with a listing beside what a write of the value leaves, and where that stores
 * nothing beside a read; or null. */
static const char *wrong_beside_write(const struct call *call, const struct given *came)
{
    struct image left = call->hart;
    uint64_t address = call->numbers[0], value = call->numbers[1], listed = 0, h[VHART_HART_WORDS];
    const uint64_t to_read[NUMBERS] = {address, call->numbers[2], call->numbers[3]};
    size_t word = word_written(address);
    get_words(h, call->hart.bytes, VHART_HART_WORDS);
    call_entry(WRITE, call->numbers, call->caps.bytes, call->caps.length, left.bytes, left.length, NULL);
    uint64_t stored =
        word < VHART_HART_WORDS
            ? vhart_get(left.bytes, word)
            : call_entry(READ, to_read, call->caps.bytes, call->caps.length, left.bytes, left.length, NULL).answer;
    for (uint64_t i = 0; i < came->answer; i++) listed |= (uint64_t)1 << came->bits[i];
    if (listed != ((value ^ stored) & bits_compared(h, address))) return "the bits aren't those that a write loses";
    return NULL;
}

static const char *wrong_in_listing(const struct call *call, const struct given *came)
{
    vhart_listing owed = listing_owed(call);
    if (came->answer != owed.count) return "the count isn't the rules'";
    if (memcmp(came->bits, owed.bits, sizeof owed.bits) != 0) return "the bits aren't the rules'";
    if (memcmp(came->reasons, owed.reasons, sizeof owed.reasons) != 0) return "the reasons aren't the rules'";
    return came->refusal != 0 ? NULL : wrong_beside_write(call, came);
}

static const char *wrong_in_totals(const struct call *call, const struct given *came, const struct block *totals)
{
    vhart_totals owed = totals_owed(call);
    if (came->answer != 0) return "an answer of tally";
    if (came->effect != 0) return "an effect of tally";
    if (is_same(totals, &owed)) return NULL;
    return came->refusal != 0 ? "a refusal changed the totals" : "the totals aren't the rules'";
}

int replay_singly(struct call *call, const uint8_t *log, size_t count, uint8_t *out, struct entered *entered)
{
    int is_owed = 1;
    for (size_t i = 0; i < count; i++) {
        const uint8_t *entry = log + ENTRY * i;
        uint64_t kind = vhart_get(entry, 0);
        struct given given = {VHART_BAD_ENTRY, 0, 0, {0}, {0}, {0}};
        if (call_of_entry(entry, call)) {
            uint64_t owed = refusal_owed(call);
            given = call_entry(call->entry, call->numbers, call->caps.bytes, call->caps.length, call->hart.bytes,
                               call->hart.length, NULL);
            is_owed &= given.refusal == owed;
        }
        vhart_put(out, 3 * i, given.answer);
        vhart_put(out, 3 * i + 1, given.effect);
        vhart_put(out, 3 * i + 2, given.refusal);
        if (given.refusal < REFUSALS) entered->refusals[kind < KINDS ? kind : KINDS] |= 1u << given.refusal;
    }
    return is_owed;
}

/* What is wrong with a fragment that was replayed, or null. */
static const char *wrong_in_replay(const struct call *call, const struct given *came, const struct blocks *lent,
                                   struct entered *entered)
{
    struct call left = *call; /* of which each entry makes a call */
    uint8_t log[LONGEST_LOG];
    size_t length = join_log(call, log), count = entries_completed(call);
    if (came->answer != count) return "the answer isn't how many entries were completed";
    if (!replay_singly(&left, log, count, left.out.bytes, entered)) return "an entry's refusal isn't the table's";
    if (memcmp(start_of(&lent->out), left.out.bytes, ENTRY * count) != 0) return "an entry isn't as its call alone";
    if (!is_same(&lent->out, left.out.bytes)) return "a byte of out changed behind the last entry";
    if (!is_same(&lent->hart, left.hart.bytes)) return "the record isn't what the entries' calls leave";
    put_waiting(left.wait.bytes, log, length);
    if (!is_same(&lent->wait, left.wait.bytes)) return "the waiting bytes aren't the rules'";
    return NULL;
}

/* What is wrong beside what the other engine makes of the same call, or null. */
static const char *wrong_beside_twin(const struct call *call, const struct given *came, const struct block *hart)
{
    enum entry twin = twin_of(call->entry);
    struct image left = call->hart;
    if (twin == call->entry) return NULL;
    struct given other =
        call_entry(twin, call->numbers, call->caps.bytes, call->caps.length, left.bytes, left.length, NULL);
    if (memcmp(came, &other, sizeof other) != 0) return "the other engine gives something else";
    if (!is_same(hart, left.bytes)) return "the other engine leaves another record";
    return NULL;
}

/* What is wrong with the bytes that no call may change, or null: those beside what it was lent, and
 * what it only reads. */
static const char *wrong_in_kept(const struct call *call, const struct blocks *lent)
{
    int is_read = entries[call->entry].only_reads;
    if (!are_guards_whole(&lent->caps)) return "a byte beside the capability image changed";
    if (!are_guards_whole(&lent->hart)) return "a byte beside the hart image or the file changed";
    if (!are_guards_whole(&lent->totals)) return "a byte beside the totals changed";
    if (!are_guards_whole(&lent->wait)) return "a byte beside the waiting bytes changed";
    if (!are_guards_whole(&lent->fragment)) return "a byte beside the fragment changed";
    if (!are_guards_whole(&lent->out)) return "a byte beside out changed";
    if (!is_same(&lent->caps, call->caps.bytes)) return "the capability image changed";
    if (!is_same(&lent->fragment, call->fragment.bytes)) return "the fragment changed";
    if (is_read && !is_same(&lent->hart, call->hart.bytes)) {
        return "an entry that only reads changed the hart image or the file";
    }
    if (is_read && !is_same(&lent->wait, call->wait.bytes)) return "an entry that only reads changed the waiting bytes";
    return NULL;
}

/* What is wrong with a refusal, or null. */
static const char *wrong_in_refusal(const struct call *call, const struct given *came, const struct blocks *lent)
{
    if (came->answer != 0) return "a refusal has an answer";
    if (came->effect != 0) return "a refusal has an effect";
    if (!is_same(&lent->hart, call->hart.bytes)) return "a refusal changed the hart image or the file";
    if (!is_same(&lent->wait, call->wait.bytes)) return "a refusal changed the waiting bytes";
    if (!is_same(&lent->out, call->out.bytes)) return "a refusal changed out";
    return NULL;
}

/* What is wrong with what an entry gave and these blocks, or null. */
static const char *wrong_in(const struct call *call, uint64_t owed, const struct given *came, const struct blocks *lent,
                            struct entered *entered)
{
    enum entry entry = call->entry;
    int is_read = entries[entry].only_reads;
    int writes_csr = can_give(entry, VHART_NO_SUCH_CSR) && !is_read, reads_csr = can_give(entry, VHART_BAD_LINE);
    if (came->refusal != owed) return "the refusal isn't the table's";
    const char *wrong = wrong_in_kept(call, lent);
    if (wrong != NULL) return wrong;
    if (is_check(entry)) return wrong_in_fault(call, came);
    if (entry == SETTINGS_READ) return wrong_in_words(call, came);
    if (entry == EXPLAIN) return wrong_in_listing(call, came);
    if (entry == TALLY) return wrong_in_totals(call, came, &lent->totals);
    if (came->refusal != 0) return wrong_in_refusal(call, came, lent);
    if (came->effect > VHART_EFFECT_CLEAR_SEIP) return "no such effect";
    if (came->effect != 0 && !writes_csr) return "an effect of an entry that writes no CSR";
    if (came->answer != 0 && !(reads_csr || is_read || entry == REPLAY)) return "an answer where nothing is read";
    if (entry == SETTINGS_WRITE) return wrong_in_file(call, &lent->hart);
    if (!is_record_legal(call, start_of(&lent->hart))) return "the record isn't legal any more";
    if (entry == REPLAY) return wrong_in_replay(call, came, lent, entered);
    return wrong_beside_twin(call, came, &lent->hart);
}

/* The call's bytes in blocks of their own, and what an entry is lent of them. */
static struct blocks lend_all(const struct call *call, struct place place)
{
    struct blocks lent = {
        lend(call->caps.bytes, call->caps.length, place.before_caps, place.behind),
        lend(call->hart.bytes, call->hart.length, place.before_hart, place.behind),
        lend(&call->totals, sizeof call->totals, place.before_totals, place.behind),
        lend(call->wait.bytes, call->wait.length, place.before_wait, place.behind),
        lend(call->fragment.bytes, call->fragment.length, place.before_fragment, place.behind),
        lend(call->out.bytes, call->out.length, place.before_out, place.behind),
    };
    return lent;
}

static struct bytes in(const struct block *block)
{
    struct bytes bytes = {start_of(block), block->length};
    return bytes;
}

static void free_all(const struct blocks *lent)
{
    free(lent->caps.bytes);
    free(lent->hart.bytes);
    free(lent->totals.bytes);
    free(lent->wait.bytes);
    free(lent->fragment.bytes);
    free(lent->out.bytes);
}

/* Prints the call that was wrong, and what came of it. */
static void print_wrong(const struct call *call, uint64_t owed, const struct given *came, const struct blocks *lent)
{
    printf("expected refusal %llu; came refusal %llu, %s 0x%llx, %s 0x%llx\n", (unsigned long long)owed,
           (unsigned long long)came->refusal, second_of(call->entry), (unsigned long long)came->answer,
           third_of(call->entry), (unsigned long long)came->effect);
    print_call(call);
    if (call->entry == EXPLAIN) {
        vhart_listing listing = listing_owed(call);
        print_lists("expected", listing.bits, listing.reasons);
        print_lists("came", came->bits, came->reasons);
    }
    if (call->entry == TALLY) {
        vhart_totals left = totals_owed(call);
        print_totals("expected", &left);
        print_totals("came", (const vhart_totals *)start_of(&lent->totals));
    }
    if (is_on_log(call->entry)) {
        print_bytes("wait came", start_of(&lent->wait), lent->wait.length);
        print_bytes("out came", start_of(&lent->out), lent->out.length);
    }
}

struct verdict check_call(const struct call *call, struct place place)
{
    struct blocks blocks = lend_all(call, place);
    const struct lent lent = {(vhart_totals *)start_of(&blocks.totals), in(&blocks.wait), in(&blocks.fragment),
                              in(&blocks.out)};
    struct verdict verdict = {refusal_owed(call), 0, {0}, {{0}}, 0};
    struct given came = call_entry(call->entry, call->numbers, start_of(&blocks.caps), call->caps.length,
                                   start_of(&blocks.hart), call->hart.length, &lent);
    const char *wrong = wrong_in(call, verdict.owed, &came, &blocks, &verdict.entered);
    verdict.came = came.refusal;
    verdict.is_right = wrong == NULL;
    memcpy(verdict.reasons, came.reasons, sizeof verdict.reasons);
    if (wrong != NULL) {
        printf("wrong: vhart_%s: %s: ", entries[call->entry].name, wrong);
        print_wrong(call, verdict.owed, &came, &blocks);
    }
    free_all(&blocks);
    return verdict;
}
