/* cases.c: runs the shared cases (tests/cases.txt, whose head says the format) over
 * include/vhart.h, whose accessors are tested first.
 *
 * Each image or file stands in a block of its own of exactly its length, so that valgrind sees any
 * access beyond it, and so do the totals and the bytes of a call log; and each case runs a second
 * time with all of these one byte off their alignment, but the totals four bytes off their block's
 * start. Prints `N cases, 0 failed`; the status is 0 only then. */
#include "accessors.h"
#include "entries.h"
#include "images.h"

#include <ctype.h>
#include <stdio.h>
#include <stdlib.h>
#include <string.h>

#define LONGEST 4096 /* bytes of an image or a file */
#define LINE 2048    /* characters of a line */
#define COLUMNS 6    /* of a case */
#define NAMED 32     /* images */
#define FILLER 0xA5  /* the bytes of `any`, and those behind a short image */
#define HEAD 6       /* bytes of a settings file before its image */
#define MOST 256     /* bytes of a fragment, and of what it is replayed with */

/* A kind of image: its words, and how many bytes stand before them. */
struct kind {
    const char *name;
    const char *const *words;
    size_t count, head;
};

static const struct kind caps_kind = {"caps", caps_words, VHART_CAPS_WORDS, 0};
static const struct kind hart_kind = {"hart", hart_words, VHART_HART_WORDS, 0};
static const struct kind file_kind = {"file", caps_words, VHART_CAPS_WORDS, HEAD};

/* What stands before the words of a file. */
static const struct {
    const char *name;
    size_t first, bytes;
} head_parts[] = {{"mark", 0, 3}, {"version", 3, 2}, {"sixth", 5, 1}};

struct image {
    uint8_t bytes[LONGEST];
    size_t length;
};

/* The images that cases.txt names, and the record or file that the case before left. */
static struct {
    const struct kind *kind;
    char name[32];
    struct image image;
} named[NAMED];
static size_t named_count;
static struct image last;
static const struct kind *kind_of_last;

static unsigned line_number;

static void stop(const char *what, const char *text)
{
    fprintf(stderr, "cases.txt:%u: %s: %s\n", line_number, what, text);
    exit(2);
}

static uint64_t number(const char *text)
{
    char *end;
    uint64_t value = strtoull(text, &end, 0);
    if (!isdigit((unsigned char)*text) || *end != '\0') stop("not a number", text);
    return value;
}

/* Finds a named image; its place or the number of images. */
static size_t find(const struct kind *kind, const char *name)
{
    size_t i = 0;
    while (i < named_count && (named[i].kind != kind || strcmp(named[i].name, name) != 0)) i++;
    return i;
}

/* The image of this name. */
static struct image by_name(const struct kind *kind, const char *name)
{
    struct image image;
    size_t i = find(kind, name);
    if (i < named_count) return named[i].image;
    if (kind == kind_of_last && strcmp(name, "last") == 0) return last;
    memset(&image, strcmp(name, "any") == 0 ? FILLER : 0, sizeof image);
    image.length = kind->head + 8 * kind->count;
    if (strcmp(name, "any") != 0 && strcmp(name, "zero") != 0) stop("no such image", name);
    return image;
}

/* The place of the word of this name, or how many words there are. */
static size_t place_of(const struct kind *kind, const char *name)
{
    size_t i = 0;
    while (i < kind->count && strcmp(kind->words[i], name) != 0) i++;
    return i;
}

/* Sets what stands before the words of a file; 0 if the name is of no such part. */
static int set_head(struct image *image, const char *name, uint64_t value)
{
    for (size_t i = 0; i < sizeof head_parts / sizeof head_parts[0]; i++) {
        if (strcmp(head_parts[i].name, name) != 0) continue;
        if (value >> 8 * head_parts[i].bytes != 0) stop("too large for", name);
        for (size_t k = 0; k < head_parts[i].bytes; k++) {
            image->bytes[head_parts[i].first + k] = (uint8_t)(value >> 8 * k);
        }
        return 1;
    }
    return 0;
}

/* Sets what one `word=value` says. */
static void set(const struct kind *kind, struct image *image, char *setting)
{
    char *equals = strchr(setting, '=');
    if (equals == NULL) stop("not word=value", setting);
    *equals = '\0';
    uint64_t value = number(equals + 1);
    if (strcmp(setting, "length") == 0) {
        if (value > LONGEST) stop("too long", equals + 1);
        if (value > image->length) memset(image->bytes + image->length, FILLER, (size_t)value - image->length);
        image->length = (size_t)value;
        return;
    }
    if (kind->head > 0 && set_head(image, setting, value)) return;
    size_t place = place_of(kind, setting);
    if (place == kind->count) stop("no such word", setting);
    vhart_put(image->bytes + kind->head, place, value);
}

/* Reads an image: the one named first, or else the one given, with the words that differ. */
static struct image read_image(const struct kind *kind, const struct image *given, char *text)
{
    char *token = strtok(text, " ");
    int is_name = token != NULL && strchr(token, '=') == NULL;
    if (!is_name && given == NULL) stop("no image", kind->name);
    struct image image = is_name ? by_name(kind, token) : *given;
    if (is_name) token = strtok(NULL, " ");
    for (; token != NULL; token = strtok(NULL, " ")) set(kind, &image, token);
    return image;
}

struct run {
    uint8_t bytes[MOST];
    size_t length;
};

/* What is lent beside the images: to tally the totals, and the rest to the calls on a log. */
struct beside {
    vhart_totals totals;
    struct run wait, fragment, out;
};

/* An entry with its numbers, those left out 0, and what is lent to it. */
struct call {
    enum entry entry;
    uint64_t numbers[NUMBERS];
    struct beside lent;
};

static const struct call nothing; /* which is FRESH, with 0 in all else */
static struct call each[CALLS];   /* what `each` calls */
static size_t each_count;

/* Reads nine totals, the first from this text and the others from what is left of it. */
static vhart_totals read_totals(const char *first)
{
    vhart_totals totals = {{0}, 0, 0};
    const char *token = first;
    for (int i = 0; i < TOTALS; i++, token = strtok(NULL, " ")) {
        if (token == NULL) stop("not nine totals", "");
        uint64_t value = number(token);
        if (value > UINT32_MAX) stop("too large for a total", token);
        put_total(&totals, i, (uint32_t)value);
    }
    if (token != NULL) stop("too many totals", token);
    return totals;
}

/* The next of a run of hex digits, as long as there are two. */
static uint8_t byte_at(const char *digits)
{
    char pair[] = {digits[0], digits[0] == '\0' ? '\0' : digits[1], '\0'}, *end;
    uint64_t value = strtoull(pair, &end, 16);
    if (!isxdigit((unsigned char)pair[0]) || end != pair + 2) stop("not bytes", digits);
    return (uint8_t)value;
}

/* Puts one part behind the run, as often as it says. */
static void add_part(struct run *run, char *part)
{
    struct run one = {{0}, 8};
    char *times = strchr(part, '*');
    if (times != NULL) *times++ = '\0';
    if (*part != 'b') vhart_put(one.bytes, 0, number(part));
    else if (strlen(part) > 2 * MOST) stop("too long", part);
    else for (one.length = 0; part[1 + 2 * one.length] != '\0'; one.length++) {
        one.bytes[one.length] = byte_at(part + 1 + 2 * one.length);
    }
    for (uint64_t left = times == NULL ? 1 : number(times); left > 0; left--) {
        if (run->length + one.length > MOST) stop("too long", part);
        memcpy(run->bytes + run->length, one.bytes, one.length);
        run->length += one.length;
    }
}

/* Reads a run of bytes, which is the next of what is left of a text. */
static struct run read_bytes(void)
{
    struct run run = {{0}, 0};
    char *part = strtok(NULL, " ");
    if (part == NULL) stop("no bytes", "");
    if (strcmp(part, "-") == 0) return run;
    while (part != NULL) {
        char *comma = strchr(part, ',');
        if (comma != NULL) *comma++ = '\0';
        add_part(&run, part);
        part = comma;
    }
    return run;
}

/* Reads a call from a text, or from what is left of the one before. */
static struct call read_call(char *text)
{
    struct call call = nothing;
    const char *name = strtok(text, " ");
    int count = 0;
    if (name == NULL) stop("no call", "");
    while (call.entry < ENTRIES && strcmp(entries[call.entry].name, name) != 0) call.entry++;
    if (call.entry == ENTRIES) stop("no such entry", name);
    if (is_on_log(call.entry)) call.lent.wait = read_bytes();
    if (call.entry == REPLAY) {
        call.lent.fragment = read_bytes();
        call.lent.out = read_bytes();
    }
    for (char *token; (token = strtok(NULL, " ")) != NULL; count++) {
        if (count == entries[call.entry].numbers) {
            if (call.entry != TALLY) stop("too many numbers", token);
            call.lent.totals = read_totals(token);
            break;
        }
        call.numbers[count] = number(token);
    }
    return call;
}

/* Reads what `each` calls of an entry, behind that word: the lines have all the calls on a record,
 * in the list's order. */
static void add_each(void)
{
    struct call call = read_call(NULL);
    int is_next = each_count < CALLS && call.entry == (enum entry)each_count;
    if (!is_next) stop("not the next call", entries[call.entry].name);
    each[each_count++] = call;
}

/* The kind of this name. */
static const struct kind *kind_by_name(const char *name)
{
    static const struct kind *const kinds[] = {&caps_kind, &hart_kind, &file_kind};
    for (size_t i = 0; i < sizeof kinds / sizeof kinds[0]; i++) {
        if (strcmp(kinds[i]->name, name) == 0) return kinds[i];
    }
    stop("neither caps nor hart nor file", name);
    return NULL;
}

/* Reads `each CALL`, or `KIND NAME = IMAGE`. */
static void define(char *line)
{
    char *equals = strchr(line, '=');
    const char *kind_name = strtok(line, " ");
    if (strcmp(kind_name, "each") == 0) {
        add_each();
        return;
    }
    if (equals == NULL) stop("not a definition", line);
    *equals = '\0';
    const char *name = strtok(NULL, " ");
    if (name == NULL || strlen(name) >= sizeof named[0].name) stop("not a definition", line);
    const struct kind *kind = kind_by_name(kind_name);
    struct image image = read_image(kind, NULL, equals + 1);
    size_t i = find(kind, name);
    if (i == NAMED) stop("too many images", name);
    if (i == named_count) named_count++;
    named[i].kind = kind;
    strcpy(named[i].name, name);
    named[i].image = image;
}

/* Reads `legal`, or `fault REFUSAL WORD VALUE`. */
static struct given read_fault(char *text)
{
    struct given given = {0, 0, 0, {0}, {0}, {0}};
    const char *what = strtok(text, " "), *refusal = strtok(NULL, " "), *word = strtok(NULL, " ");
    const char *value = strtok(NULL, " ");
    if (what != NULL && strcmp(what, "legal") == 0 && refusal == NULL) return given;
    if (what == NULL || strcmp(what, "fault") != 0 || value == NULL) stop("not a fault", what == NULL ? "" : what);
    given.refusal = number(refusal);
    const struct kind *kind = given.refusal == VHART_BAD_CAPS ? &caps_kind : &hart_kind;
    size_t place = place_of(kind, word);
    given.answer = place < kind->count ? place : number(word);
    given.effect = number(value);
    return given;
}

/* Reads what is left of `lost BIT:REASON..`. */
static struct given read_lost(void)
{
    struct given given = {0, 0, 0, {0}, {0}, {0}};
    for (char *bit; (bit = strtok(NULL, " ")) != NULL; given.answer++) {
        char *colon = strchr(bit, ':');
        if (colon == NULL || given.answer == BITS) stop("not BIT:REASON, or one too many", bit);
        *colon = '\0';
        given.bits[given.answer] = (uint8_t)number(bit);
        given.reasons[given.answer] = (uint8_t)number(colon + 1);
    }
    return given;
}

/* Reads the rest of `wait BYTES out BYTES`. */
static void read_left(const char *word, struct beside *after)
{
    if (word == NULL || strcmp(word, "wait") != 0) stop("no waiting bytes", word == NULL ? "" : word);
    after->wait = read_bytes();
    word = strtok(NULL, " ");
    if (word == NULL || strcmp(word, "out") != 0) stop("no out", word == NULL ? "" : word);
    after->out = read_bytes();
}

/* Reads `done ANSWER`, with `set` or `clear`, or `refused NUMBER`; of settings_read `words IMAGE`,
 * of explain `lost BIT:REASON..`, of tally `done totals` with those that it leaves, of replay what
 * it leaves behind the answer, and of a check what it gives. */
static struct given read_outcome(enum entry entry, char *text, struct beside *after)
{
    struct given given = {0, 0, 0, {0}, {0}, {0}};
    if (is_check(entry)) return read_fault(text);
    char *word = strtok(text, " ");
    if (entry == EXPLAIN && word != NULL && strcmp(word, "lost") == 0) return read_lost();
    if (entry == SETTINGS_READ && word != NULL && strcmp(word, "words") == 0) {
        struct image image = read_image(&caps_kind, NULL, NULL); /* what is left of the text */
        get_words(given.words, image.bytes, VHART_CAPS_WORDS);
        return given;
    }
    char *value = strtok(NULL, " ");
    char *effect = strtok(NULL, " ");
    if (word == NULL || value == NULL) stop("not an outcome", word == NULL ? "" : word);
    if (strcmp(word, "refused") == 0 && effect == NULL) {
        given.refusal = number(value);
        return given;
    }
    if (strcmp(word, "done") != 0 || entry == SETTINGS_READ || entry == EXPLAIN) stop("not an outcome", word);
    if (entry == TALLY) {
        if (strcmp(value, "totals") != 0) stop("no totals", value);
        after->totals = read_totals(effect); /* which is the first of them */
        return given;
    }
    given.answer = number(value);
    if (entry == REPLAY) {
        read_left(effect, after);
        return given;
    }
    if (effect != NULL && strcmp(effect, "set") == 0) given.effect = VHART_EFFECT_SET_SEIP;
    else if (effect != NULL && strcmp(effect, "clear") == 0) given.effect = VHART_EFFECT_CLEAR_SEIP;
    else if (effect != NULL) stop("no such effect", effect);
    return given;
}

/* A block of their own for these bytes, `off` behind the block's start and up to its end. */
static uint8_t *lend(const void *bytes, size_t length, size_t off)
{
    uint8_t *block = malloc(off + length);
    if (block == NULL) stop("no memory", "");
    memcpy(block + off, bytes, length);
    return block;
}

/* What the case shows, the entry, and whether it has failed: the first failure prints its head. */
static const char *title;
static enum entry called;
static int has_failed;

static void fail(void)
{
    if (!has_failed) printf("cases.txt:%u failed, %s: %s\n", line_number, entries[called].name, title);
    has_failed = 1;
}

static void compare_number(const char *what, uint64_t expected, uint64_t came)
{
    if (expected == came) return;
    fail();
    printf("  %s: expected 0x%llx, came 0x%llx\n", what, (unsigned long long)expected, (unsigned long long)came);
}

static void tell_byte(const char *what, size_t i, uint8_t expected, uint8_t came)
{
    fail();
    printf("  %s, byte %lu: expected 0x%02x, came 0x%02x\n", what, (unsigned long)i, expected, came);
}

/* Tells the first byte in which an image isn't what it should be, by its word where it has one. */
static void compare_image(const struct kind *kind, const struct image *expected, const uint8_t *came)
{
    for (size_t i = 0; i < expected->length; i++) {
        if (came[i] == expected->bytes[i]) continue;
        fail();
        size_t word = i < kind->head ? kind->count : (i - kind->head) / 8;
        if (word < kind->count && kind->head + 8 * word + 8 <= expected->length) {
            printf("  %s, word %s: expected 0x%llx, came 0x%llx\n", kind->name, kind->words[word],
                   (unsigned long long)vhart_get(expected->bytes + kind->head, word),
                   (unsigned long long)vhart_get(came + kind->head, word));
        } else {
            tell_byte(kind->name, i, expected->bytes[i], came[i]);
        }
        return;
    }
}

/* The same of a run of bytes. */
static void compare_run(const char *what, const struct run *expected, const uint8_t *came)
{
    size_t i = 0;
    while (i < expected->length && came[i] == expected->bytes[i]) i++;
    if (i < expected->length) tell_byte(what, i, expected->bytes[i], came[i]);
}

/* What stands in the second column of this call. */
static const struct kind *second_kind(enum entry entry) { return is_on_file(entry) ? &file_kind : &hart_kind; }

/* Makes the call with the totals four times `off` bytes behind a block's start, and all else that
 * it is lent `off` bytes, and compares. */
static void run(const struct call *call, const struct image *caps, const struct image *hart,
                const struct given *expected, const struct image *after, const struct beside *beside_after, size_t off)
{
    const struct beside *lent = &call->lent, *owed = expected->refusal != 0 ? lent : beside_after;
    uint8_t *c = lend(caps->bytes, caps->length, off), *h = lend(hart->bytes, hart->length, off);
    uint8_t *t = lend(&lent->totals, sizeof lent->totals, 4 * off), *w = lend(lent->wait.bytes, lent->wait.length, off);
    uint8_t *f = lend(lent->fragment.bytes, lent->fragment.length, off);
    uint8_t *o = lend(lent->out.bytes, lent->out.length, off);
    vhart_totals *totals = (vhart_totals *)(t + 4 * off);
    const struct lent there = {
        totals, {w + off, lent->wait.length}, {f + off, lent->fragment.length}, {o + off, lent->out.length}};
    struct given came = call_entry(call->entry, call->numbers, c + off, caps->length, h + off, hart->length, &there);
    compare_number("refusal", expected->refusal, came.refusal);
    compare_number(second_of(call->entry), expected->answer, came.answer);
    compare_number(third_of(call->entry), expected->effect, came.effect);
    for (size_t i = 0; i < VHART_CAPS_WORDS; i++) compare_number(caps_words[i], expected->words[i], came.words[i]);
    for (size_t i = 0; i < BITS; i++) {
        compare_number("a lost bit", expected->bits[i], came.bits[i]);
        compare_number("its reason", expected->reasons[i], came.reasons[i]);
    }
    for (int i = 0; i < TOTALS; i++) compare_number(total_names[i], get_total(&owed->totals, i), get_total(totals, i));
    compare_run("wait", &owed->wait, w + off);
    compare_run("fragment", &lent->fragment, f + off);
    compare_run("out", &owed->out, o + off);
    compare_image(&caps_kind, caps, c + off);
    compare_image(second_kind(call->entry), after, h + off);
    free(c);
    free(h);
    free(t);
    free(w);
    free(f);
    free(o);
}

/* Runs the case of this line; 1 where it failed. */
static int run_case(char *line)
{
    char *column[COLUMNS];
    char *rest = line;
    for (int i = 0; i < COLUMNS; i++) {
        column[i] = rest;
        rest = strchr(rest, '|');
        if ((rest == NULL) != (i == COLUMNS - 1)) stop("not six columns", column[0]);
        if (rest != NULL) *rest++ = '\0';
    }
    char *what = column[3];
    while (*what == ' ') what++;
    int is_each = strcmp(what, "each ") == 0, is_each_but_fresh = strcmp(what, "each-but-fresh ") == 0;
    struct call one[2] = {nothing, nothing}; /* by each engine */
    if (!is_each && !is_each_but_fresh) one[0] = one[1] = read_call(what);
    else if (each_count != CALLS) stop("`each` isn't told of each call", "");
    one[1].entry = twin_of(one[0].entry);
    const struct kind *kind = second_kind(one[0].entry);
    struct image caps = read_image(&caps_kind, NULL, column[1]);
    struct image hart = read_image(kind, NULL, column[2]);
    struct beside beside_after = one[0].lent;
    struct given expected = read_outcome(one[0].entry, column[4], &beside_after);
    if (beside_after.wait.length != one[0].lent.wait.length || beside_after.out.length != one[0].lent.out.length) {
        stop("another length than was lent", column[0]);
    }
    int same = strcmp(column[5], " same") == 0;
    struct image after = same ? hart : read_image(kind, &hart, column[5]);
    last = after;
    kind_of_last = kind;
    title = column[0];
    has_failed = 0;
    const struct call *call = is_each || is_each_but_fresh ? each : one;
    size_t left = call == each ? each_count : one[1].entry != one[0].entry ? 2 : 1;
    for (; left > 0 && !has_failed; left--, call++) {
        if (is_each_but_fresh && call->entry == FRESH) continue;
        called = call->entry;
        run(call, &caps, &hart, &expected, &after, &beside_after, 0);
        if (!has_failed) run(call, &caps, &hart, &expected, &after, &beside_after, 1);
    }
    return has_failed;
}

int main(int argc, char **argv)
{
    const char *path = argc > 1 ? argv[1] : "tests/cases.txt";
    FILE *file = fopen(path, "r");
    char line[LINE];
    unsigned cases = 0, failed = 0;
    if (file == NULL) {
        fprintf(stderr, "%s: can't be read; give the path of cases.txt\n", path);
        return 2;
    }
    if (!are_accessors_right()) {
        fprintf(stderr, "vhart_get or vhart_put is wrong\n");
        return 1;
    }
    while (fgets(line, sizeof line, file) != NULL) {
        line_number++;
        size_t length = strcspn(line, "\n");
        if (line[length] == '\0') stop("line too long or not ended", line);
        line[length] = '\0';
        if (line[0] == '#' || line[0] == '\0') continue;
        if (strchr(line, '|') == NULL) {
            define(line);
            continue;
        }
        cases++;
        failed += (unsigned)run_case(line);
    }
    fclose(file);
    printf("%u cases, %u failed\n", cases, failed);
    return cases == 0 || failed != 0;
}
