/* vectors.c: replays the stored vectors (crates/vectors/stdin, whose head says the format) over
 * include/vhart.h: a read or a write by each of the two engines.
 *
 * The record that a call leaves is the next call's. Prints `N calls, 0 differ`; the status is 0
 * only then. */
#include "entries.h"
#include "images.h"

#include <ctype.h>
#include <stdio.h>
#include <stdlib.h>
#include <string.h>

#define LINE 2048  /* characters of a line */
#define MOST 160   /* numbers of a line: a call's, answer, effect, words with values */
#define SHOWN 10   /* differing calls that are told */

static uint8_t caps[VHART_CAPS_BYTES], hart[VHART_HART_BYTES];
static uint64_t listed[VHART_HART_WORDS]; /* the bits of each word in which the two differ */
static unsigned line_number, calls, differ;

static void stop(const char *what)
{
    fprintf(stderr, "line %u: %s\n", line_number, what);
    exit(2);
}

/* The numbers of a line behind its name, and how many stand before the `=`. */
struct numbers {
    uint64_t at[MOST];
    size_t count, arguments;
};

static struct numbers read_numbers(void)
{
    struct numbers n = {{0}, 0, MOST};
    for (char *end, *token; (token = strtok(NULL, " ")) != NULL;) {
        if (strcmp(token, "=") == 0 && n.arguments == MOST) {
            n.arguments = n.count;
            continue;
        }
        if (n.count == MOST) stop("too many numbers");
        n.at[n.count++] = strtoull(token, &end, 16);
        if (!isxdigit((unsigned char)*token) || *end != '\0') stop("not a number");
    }
    return n;
}

static void expect(size_t count, const struct numbers *n)
{
    if (n->count != count || n->arguments != MOST) stop("wrong count of numbers");
}

static void tell(const char *entry, const char *what, uint64_t came, uint64_t original)
{
    printf("line %u, %s: %s is 0x%llx, and the original's 0x%llx\n", line_number, entry, what, (unsigned long long)came,
           (unsigned long long)original);
}

/* Makes the call on the record and compares; 1 where something differs. The first calls that differ
 * are told. */
static int replay(enum entry entry, const struct numbers *n, uint8_t *record)
{
    uint64_t left[VHART_HART_WORDS]; /* by the original */
    int is_different = 0;
    get_words(left, record, VHART_HART_WORDS);
    for (size_t i = n->arguments + 2; i < n->count; i += 2) {
        if (n->at[i] >= VHART_HART_WORDS) stop("no such word");
        left[n->at[i]] = n->at[i + 1];
    }
    struct given came = /* without totals: the original has no tally */
        call_entry(entry, n->at, caps, sizeof caps, record, VHART_HART_BYTES, NULL);
    const struct {
        const char *name;
        uint64_t came, original;
    } given[] = {
        {"the refusal", came.refusal, 0},
        {"the answer", came.answer, n->at[n->arguments]},
        {"the effect", came.effect, n->at[n->arguments + 1]},
    };
    for (size_t i = 0; i < sizeof given / sizeof given[0]; i++) {
        if (given[i].came == given[i].original) continue;
        is_different = 1;
        if (differ < SHOWN) tell(entries[entry].name, given[i].name, given[i].came, given[i].original);
    }
    for (size_t i = 0; i < VHART_HART_WORDS; i++) {
        uint64_t word = vhart_get(record, i);
        if ((word ^ left[i]) == listed[i]) continue;
        is_different = 1;
        if (differ < SHOWN) tell(entries[entry].name, hart_words[i], word, left[i]);
    }
    return is_different;
}

static void run_line(char *line)
{
    const char *name = strtok(line, " ");
    struct numbers n = read_numbers();
    enum entry entry = FRESH;
    if (strcmp(name, "caps") == 0) {
        expect(VHART_CAPS_WORDS, &n);
        put_words(caps, n.at, VHART_CAPS_WORDS);
        return;
    }
    if (strcmp(name, "hart") == 0) {
        expect(VHART_HART_WORDS, &n);
        put_words(hart, n.at, VHART_HART_WORDS);
        return;
    }
    if (strcmp(name, "listed") == 0) {
        expect(2, &n);
        if (n.at[0] >= VHART_HART_WORDS) stop("no such word");
        listed[n.at[0]] = n.at[1];
        return;
    }
    while (entry < ENTRIES && strcmp(entries[entry].name, name) != 0) entry++;
    if (entry == ENTRIES) stop("no such entry");
    if (n.arguments != (size_t)entries[entry].numbers || n.count < n.arguments + 2 || (n.count - n.arguments) % 2 != 0)
        stop("wrong count of numbers");
    uint8_t copy[VHART_HART_BYTES];
    memcpy(copy, hart, sizeof copy);
    int is_different = replay(entry, &n, hart);
    if (twin_of(entry) != entry) is_different |= replay(twin_of(entry), &n, copy);
    calls++;
    differ += (unsigned)is_different;
}

int main(int argc, char **argv)
{
    const char *path = argc > 1 ? argv[1] : "crates/vectors/stdin";
    FILE *file = fopen(path, "r");
    char line[LINE];
    if (file == NULL) {
        fprintf(stderr, "%s: can't be read; give the path of the stored vectors\n", path);
        return 2;
    }
    while (fgets(line, sizeof line, file) != NULL) {
        line_number++;
        size_t length = strcspn(line, "\n");
        if (line[length] == '\0') stop("line too long or not ended");
        line[length] = '\0';
        if (line[0] != '#' && line[0] != '\0') run_line(line);
    }
    fclose(file);
    printf("%u calls, %u differ\n", calls, differ);
    return calls == 0 || differ != 0;
}
