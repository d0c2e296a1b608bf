/* fuzz.c: a libFuzzer target: the fuzzer's bytes decide a call, and check.c judges it as it does
 * those of damage.c.
 *
 * The bytes are read in order, and behind their end as zeros: the entry, what isn't as a legal
 * call has it, a seed for that call, and where the images, totals and bytes of a log lie; then raw
 * images, a raw log and lengths where they are to be others; and with the rest edits of single
 * words, numbers, totals and bits. A settings file stands in the place of the hart image. */
#include "check.h"
#include "images.h"
#include "legal.h"

#include <stdio.h>
#include <stdlib.h>
#include <string.h>

/* What isn't as a legal call has it. */
enum other {
    RAW_CAPS = 1,
    RAW_HART = 2,
    OTHER_CAPS_LENGTH = 4,
    OTHER_HART_LENGTH = 8,
    RAW_LOG = 16,
    OTHER_LOG_LENGTHS = 32
};

/* The bytes that haven't been read. */
static const uint8_t *rest;
static size_t left;

static void take(uint8_t *bytes, size_t length)
{
    size_t here = length < left ? length : left;
    memset(bytes, 0, length);
    if (here > 0) memcpy(bytes, rest, here);
    rest += here;
    left -= here;
}

static uint8_t take_byte(void)
{
    uint8_t byte;
    take(&byte, 1);
    return byte;
}

static uint64_t take_word(void)
{
    uint8_t bytes[8];
    take(bytes, sizeof bytes);
    return vhart_get(bytes, 0);
}

static size_t take_length(void)
{
    size_t low = take_byte();
    return (low | (size_t)take_byte() << 8) % (LONGEST + 1);
}

/* The word with one bit flipped, or any. */
static uint64_t edited(uint64_t word)
{
    uint8_t how = take_byte();
    return how < 128 ? word ^ (uint64_t)1 << how % 64 : take_word();
}

/* The waiting bytes, and of replay a fragment of all that is left, with an out of just the room, or
 * of a few bytes less. */
static void take_log(struct call *call)
{
    take(call->wait.bytes, ENTRY);
    call->wait.bytes[0] %= ENTRY;
    if (call->entry != REPLAY) return;
    size_t lacking = take_byte() % 4;
    call->fragment.length = left < LONGEST ? left : LONGEST;
    take(call->fragment.bytes, call->fragment.length);
    call->out.length = ENTRY * entries_completed(call);
    if (call->out.length > 0) call->out.length -= lacking;
}

static void take_log_lengths(struct call *call)
{
    call->wait.length = take_length();
    if (call->entry != REPLAY) return;
    call->fragment.length = take_length();
    call->out.length = take_length();
}

#define LOG_WORDS (LONGEST / 8) /* of the waiting bytes, and of a fragment */

/* Edits one word of the waiting bytes or of the fragment. */
static void edit_log(struct call *call, size_t word)
{
    int is_of_wait = word < ENTRY / 8, is_lent = is_of_wait ? is_on_log(call->entry) : call->entry == REPLAY;
    uint8_t *bytes = is_of_wait ? call->wait.bytes : call->fragment.bytes;
    if (!is_of_wait) word -= ENTRY / 8;
    if (is_lent) vhart_put(bytes, word, edited(vhart_get(bytes, word)));
}

/* Edits one number, one total, or one word of an image or a log. */
static void edit(struct call *call)
{
    size_t of_images = NUMBERS + TOTALS, of_log = of_images + VHART_CAPS_WORDS + VHART_HART_WORDS;
    size_t place = take_byte() % (of_log + LOG_WORDS);
    if (place >= of_log) {
        edit_log(call, place - of_log);
        return;
    }
    if (place < NUMBERS) {
        call->numbers[place] = edited(call->numbers[place]);
        return;
    }
    if (place < of_images) {
        int i = (int)place - NUMBERS;
        put_total(&call->totals, i, (uint32_t)edited(get_total(&call->totals, i)));
        return;
    }
    size_t word = place - of_images;
    uint8_t *image = word < VHART_CAPS_WORDS ? call->caps.bytes : call->hart.bytes;
    if (word >= VHART_CAPS_WORDS) word -= VHART_CAPS_WORDS;
    if (is_on_file(call->entry)) word %= (VHART_SETTINGS_BYTES + 7) / 8;
    vhart_put(image, word, edited(vhart_get(image, word)));
}

int LLVMFuzzerTestOneInput(const uint8_t *data, size_t size);

int LLVMFuzzerTestOneInput(const uint8_t *data, size_t size)
{
    struct call call;
    rest = data;
    left = size;
    enum entry entry = (enum entry)(take_byte() % ENTRIES);
    unsigned others = take_byte();
    if (others >= 64) others = 0; /* most calls have edits alone, and come close to legal */
    uint64_t seed = take_byte();
    size_t offs = take_byte();
    struct place place = {GUARD + offs % 16, GUARD + offs / 16,    GUARD + 4 * (offs % 4),
                          GUARD + offs % 8,  GUARD + offs / 8 % 8, GUARD + offs / 32,
                          GUARD};
    draw_call(&seed, entry, &call);
    if ((others & RAW_CAPS) != 0) take(call.caps.bytes, VHART_CAPS_BYTES);
    if ((others & RAW_HART) != 0) take(call.hart.bytes, call.hart.length);
    if ((others & OTHER_CAPS_LENGTH) != 0) call.caps.length = take_length();
    if ((others & OTHER_HART_LENGTH) != 0) call.hart.length = take_length();
    if ((others & OTHER_LOG_LENGTHS) != 0 && is_on_log(entry)) take_log_lengths(&call);
    if ((others & RAW_LOG) != 0 && is_on_log(entry)) take_log(&call);
    while (left > 0) edit(&call);
    if (!check_call(&call, place).is_right) {
        fflush(stdout);
        abort();
    }
    return 0;
}
