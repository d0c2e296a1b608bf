/* lost.c: which bits a write loses and why, by docs/RULES.md, "Registers" and "Lost bits", a line
 * for each register and each reason, to be read beside it; and what that adds to "Month totals".
 *
 * As table.c it is written from those rules and never from the library. */
#include "lost.h"

#include "images.h"

#include <string.h>

#define BIT(n) ((uint64_t)1 << (n))
#define TO(first, last) (((uint64_t)2 << (last)) - BIT(first)) /* the bits first to last */
#define ALL TO(0, 63)

/* The write that is asked about: the words of the capabilities and of the record, and numbers. */
struct write {
    uint64_t c[VHART_CAPS_WORDS], h[VHART_HART_WORDS];
    uint64_t address, value, time, seed;
};

static struct write write_of(const struct call *call)
{
    struct write w;
    get_words(w.c, call->caps.bytes, VHART_CAPS_WORDS);
    get_words(w.h, call->hart.bytes, VHART_HART_WORDS);
    w.address = call->numbers[0];
    w.value = call->numbers[1];
    w.time = call->numbers[2];
    w.seed = call->numbers[3];
    return w;
}

/* ---- what a write stores: was is what its word holds before */

static uint64_t merged(uint64_t was, uint64_t value, uint64_t mask) { return (was & ~mask) | (value & mask); }

static uint64_t whole(const struct write *w, uint64_t was) { return (void)was, w->value; }

static uint64_t mstatus(const struct write *w, uint64_t was) { return (void)was, legal_mstatus(w->c, w->value); }

#define OF_SSTATUS (BIT(1) | BIT(5) | BIT(6) | TO(8, 10) | TO(13, 16) | BIT(18) | BIT(19) | BIT(32) | BIT(33) | BIT(63))

static uint64_t sstatus(const struct write *w, uint64_t was)
{
    return legal_mstatus(w->c, merged(was, w->value, OF_SSTATUS)); /* its bits, by mstatus' rule */
}

static uint64_t mie(const struct write *w, uint64_t was)
{
    return (void)was, w->value & w->c[VHART_CAPS_INTERRUPTS] & 0xAAA;
}

static uint64_t sie(const struct write *w, uint64_t was)
{
    return merged(was, w->value, w->h[VHART_HART_MIDELEG] & 0x222); /* the delegated bits of mie */
}

static int is_stce_set(const struct write *w) { return (w->h[VHART_HART_MENVCFG] & BIT(63)) != 0; }

static uint64_t mip(const struct write *w, uint64_t was)
{
    uint64_t mask = (BIT(1) | BIT(5) | BIT(9)) & w->c[VHART_CAPS_INTERRUPTS]; /* each if there */
    if (is_stce_set(w)) mask &= ~BIT(5);                                      /* STIP without STCE */
    return merged(was, w->value, mask);
}

static uint64_t sip(const struct write *w, uint64_t was) { return merged(was, w->value, BIT(1)); }

static uint64_t mideleg(const struct write *w, uint64_t was) { return (void)was, legal_mideleg(w->c, w->value); }

static uint64_t medeleg(const struct write *w, uint64_t was) { return (void)was, legal_medeleg(w->c, w->value); }

static uint64_t tvec(const struct write *w, uint64_t was)
{
    return (w->value & TO(0, 1)) <= 1 ? w->value : merged(was, w->value, TO(2, 63)); /* 2, 3: the base alone */
}

static int is_above_highest(const struct write *w) { return w->value > w->c[VHART_CAPS_HIGHEST]; }

static uint64_t epc(const struct write *w, uint64_t was) { return is_above_highest(w) ? was : aligned(w->c, w->value); }

static int is_satp_mode(uint64_t value) { return value >> 60 == 0 || value >> 60 == 8; }

static uint64_t satp(const struct write *w, uint64_t was) { return is_satp_mode(w->value) ? w->value : was; }

static uint64_t counteren(const struct write *w, uint64_t was) { return (void)was, w->value & 7; }

static uint64_t countinhibit(const struct write *w, uint64_t was) { return (void)was, w->value & 5; }

static uint64_t menvcfg(const struct write *w, uint64_t was) { return (void)was, legal_menvcfg(w->c, w->value); }

static uint64_t senvcfg(const struct write *w, uint64_t was) { return (void)was, legal_senvcfg(w->c, w->value); }

/* The registers whose writes store something: the word that a write changes, the rule, and the bits
 * that some hart takes from a value. */
static const struct rule {
    uint64_t address;
    size_t word;
    uint64_t (*stored)(const struct write *w, uint64_t was);
    uint64_t taken;
} rules[] = {
    {0x100, VHART_HART_MSTATUS, sstatus, BIT(1) | BIT(5) | TO(8, 10) | BIT(13) | BIT(14) | BIT(18) | BIT(19)},
    {0x104, VHART_HART_MIE, sie, 0x222},
    {0x105, VHART_HART_STVEC, tvec, ALL},
    {0x106, VHART_HART_SCOUNTEREN, counteren, 7},
    {0x10A, VHART_HART_SENVCFG, senvcfg, BIT(0) | TO(4, 7)},
    {0x140, VHART_HART_SSCRATCH, whole, ALL},
    {0x141, VHART_HART_SEPC, epc, ALL & ~BIT(0)},
    {0x142, VHART_HART_SCAUSE, whole, ALL},
    {0x143, VHART_HART_STVAL, whole, ALL},
    {0x144, VHART_HART_MIP, sip, 0x2},
    {0x14D, VHART_HART_STIMECMP, whole, ALL},
    {0x180, VHART_HART_SATP, satp, ALL},
    {0x300, VHART_HART_MSTATUS, mstatus, BIT(1) | BIT(3) | BIT(5) | TO(7, 14) | TO(17, 22)},
    {0x302, VHART_HART_MEDELEG, medeleg, 0xB3FF},
    {0x303, VHART_HART_MIDELEG, mideleg, 0x2000},
    {0x304, VHART_HART_MIE, mie, 0xAAA},
    {0x305, VHART_HART_MTVEC, tvec, ALL},
    {0x306, VHART_HART_MCOUNTEREN, counteren, 7},
    {0x30A, VHART_HART_MENVCFG, menvcfg, BIT(0) | TO(4, 7) | BIT(62) | BIT(63)},
    {0x320, VHART_HART_MCOUNTINHIBIT, countinhibit, 5},
    {0x340, VHART_HART_MSCRATCH, whole, ALL},
    {0x341, VHART_HART_MEPC, epc, ALL & ~BIT(0)},
    {0x342, VHART_HART_MCAUSE, whole, ALL},
    {0x343, VHART_HART_MTVAL, whole, ALL},
    {0x344, VHART_HART_MIP, mip, 0x222},
    {0x7A0, VHART_HART_TSELECT, whole, ALL},
    {0xB00, VHART_HART_MCYCLE, whole, ALL},
    {0xB02, VHART_HART_MINSTRET, whole, ALL},
};

/* The register's rule, or null where a write stores nothing. */
static const struct rule *rule_of(uint64_t address)
{
    for (size_t i = 0; i < sizeof rules / sizeof rules[0]; i++) {
        if (rules[i].address == address) return &rules[i];
    }
    return NULL;
}

size_t word_written(uint64_t address)
{
    const struct rule *rule = rule_of(address);
    return rule == NULL ? VHART_HART_WORDS : rule->word;
}

/* What the registers read whose writes store nothing. */
static uint64_t read_only(const struct write *w)
{
    switch (w->address) {
    case 0x015: return w->seed;
    case 0x301: return w->c[VHART_CAPS_MISA];
    case 0xC00: return w->h[VHART_HART_MCYCLE];
    case 0xC01: return w->time;
    case 0xC02: return w->h[VHART_HART_MINSTRET];
    case 0xF11: return w->c[VHART_CAPS_MVENDORID];
    case 0xF12: return w->c[VHART_CAPS_MARCHID];
    case 0xF13: return w->c[VHART_CAPS_MIMPID];
    case 0xF14: return w->c[VHART_CAPS_MHARTID];
    case 0xF15: return w->c[VHART_CAPS_MCONFIGPTR];
    default: return 0; /* mhpmcounter, mhpmevent, scontext */
    }
}

uint64_t held_before(const struct call *call)
{
    struct write w = write_of(call);
    const struct rule *rule = rule_of(w.address);
    return rule == NULL ? read_only(&w) : w.h[rule->word];
}

/* ---- what the value is compared with, and in which bits */

static uint64_t compared_word(const struct write *w)
{
    const struct rule *rule = rule_of(w->address);
    return rule == NULL ? read_only(w) : rule->stored(w, w->h[rule->word]);
}

uint64_t bits_compared(const uint64_t *h, uint64_t address)
{
    switch (address) {
    case 0x100: return OF_SSTATUS;
    case 0x104:
    case 0x144: return h[VHART_HART_MIDELEG] & 0x222;
    default: return ALL;
    }
}

/* ---- the reasons, each as the bits for which it holds */

/* 1: a write to the register stores nothing, whatever the value. */
static uint64_t of_read_only(const struct write *w) { return rule_of(w->address) == NULL ? ALL : 0; }

/* The fields that are derived or forced, of 5. */
static uint64_t fields_of_5(uint64_t address)
{
    switch (address) {
    case 0x300: return TO(32, 33) | TO(34, 35) | BIT(63); /* UXL, SXL, SD */
    case 0x100: return TO(32, 33) | BIT(63);              /* UXL, SD */
    case 0x303: return BIT(1) | BIT(5) | BIT(9);
    default: return 0;
    }
}

/* 2: no hart takes this bit, and it isn't in a field of 5. Some hart takes each bit of the fields
 * of 4. */
static uint64_t of_never_copied(const struct write *w)
{
    const struct rule *rule = rule_of(w->address);
    return rule == NULL ? 0 : ~(rule->taken | fields_of_5(w->address));
}

/* The other harts: every legal choice of flags, of interrupts and of the letters S, C, F and V of
 * misa. No rule looks at another letter, and the rest of misa is the same on all harts. */
#define CHOICES BIT(4 + 7 + 5)
static struct {
    uint64_t misa, interrupts, flags;
} others[CHOICES];
static size_t others_count;

/* The lowest bits of n, each in the place of a bit of the mask. */
static uint64_t spread(uint64_t n, uint64_t mask)
{
    uint64_t word = 0;
    for (int i = 0; i < BITS; i++) {
        if ((mask & BIT(i)) == 0) continue;
        word |= (n & 1) << i;
        n >>= 1;
    }
    return word;
}

static void list_others(void)
{
    uint64_t c[VHART_CAPS_WORDS] = {0};
    for (uint64_t n = 0; n < CHOICES; n++) {
        uint64_t letters = spread(n, VHART_MISA_S | VHART_MISA_C | VHART_MISA_F | VHART_MISA_V);
        c[VHART_CAPS_MISA] = VHART_MISA_RV64 | VHART_MISA_U | letters;
        c[VHART_CAPS_INTERRUPTS] = spread(n >> 4, 0x2AAA);
        c[VHART_CAPS_FLAGS] = n >> (4 + 7);
        if (illegal_word_of_caps(c) != VHART_CAPS_WORDS) continue;
        others[others_count].misa = c[VHART_CAPS_MISA];
        others[others_count].interrupts = c[VHART_CAPS_INTERRUPTS];
        others[others_count++].flags = c[VHART_CAPS_FLAGS];
    }
}

/* 3: another hart, which has the register and the same record, would store the value's bit. */
static uint64_t of_other_extensions(const struct write *w)
{
    struct write other = *w;
    uint64_t stored = 0;
    if (others_count == 0) list_others();
    for (size_t i = 0; i < others_count; i++) {
        other.c[VHART_CAPS_MISA] = others[i].misa;
        other.c[VHART_CAPS_INTERRUPTS] = others[i].interrupts;
        other.c[VHART_CAPS_FLAGS] = others[i].flags;
        if (!is_csr_absent(other.c, w->address)) stored |= ~(w->value ^ compared_word(&other));
    }
    return stored;
}

/* 4: it is in a field whose value is reserved. */
static uint64_t of_reserved(const struct write *w)
{
    const uint64_t mpp = TO(11, 12), cbie = TO(4, 5), mode = TO(0, 1);
    switch (w->address) {
    case 0x300: return mpp_of(w->value) == 2 ? mpp : 0;
    case 0x30A:
    case 0x10A: return (w->value & cbie) >> 4 == 2 ? cbie : 0;
    case 0x305:
    case 0x105: return (w->value & mode) >= 2 ? mode : 0;
    default: return 0;
    }
}

/* 5: it is in a field that is derived or forced. */
static uint64_t of_forced(const struct write *w) { return fields_of_5(w->address); }

/* 6: the whole write is ignored. */
static uint64_t of_ignored(const struct write *w)
{
    switch (w->address) {
    case 0x341:
    case 0x141: return is_above_highest(w) ? ALL : 0;
    case 0x180: return is_satp_mode(w->value) ? 0 : ALL;
    default: return 0;
    }
}

/* 7: it is STIP of mip, while STCE is 1. */
static uint64_t of_driven(const struct write *w) { return w->address == 0x344 && is_stce_set(w) ? BIT(5) : 0; }

static uint64_t (*const reasons[])(const struct write *w) = {
    of_read_only, of_never_copied, of_other_extensions, of_reserved, of_forced, of_ignored, of_driven,
};

/* The lowest reason that holds for each of these bits, or 0 where none does. 3, which is dear, is
 * asked only where a bit has neither 1 nor 2. */
static void give_reasons(const struct write *w, uint64_t lost, uint8_t *of_bit)
{
    memset(of_bit, 0, BITS);
    for (uint8_t number = 1; number < REASONS && lost != 0; number++) {
        uint64_t here = lost & reasons[number - 1](w);
        for (int n = 0; n < BITS; n++) {
            if ((here & BIT(n)) != 0) of_bit[n] = number;
        }
        lost &= ~here;
    }
}

/* The listing of a write that isn't refused. */
static vhart_listing listing_of(const struct call *call)
{
    vhart_listing listing = {0, 0, {0}, {0}};
    uint8_t of_bit[BITS];
    struct write w = write_of(call);
    uint64_t lost = (w.value ^ compared_word(&w)) & bits_compared(w.h, w.address);
    give_reasons(&w, lost, of_bit);
    for (uint8_t n = 0; n < BITS; n++) {
        if ((lost & BIT(n)) == 0) continue;
        listing.bits[listing.count] = n;
        listing.reasons[listing.count++] = of_bit[n];
    }
    return listing;
}

vhart_listing listing_owed(const struct call *call)
{
    vhart_listing refused = {refusal_owed(call), 0, {0}, {0}};
    return refused.refusal != 0 ? refused : listing_of(call);
}

/* ---- month totals */

void add_up(const struct call *call, uint64_t *added)
{
    vhart_listing listing = listing_of(call);
    uint64_t bits_for[REASONS] = {0};
    for (uint64_t i = 0; i < listing.count; i++) bits_for[listing.reasons[i]]++;
    for (int reason = 1; reason < REASONS; reason++) added[reason - 1] = bits_for[reason];
    added[WRITES] = 1;
    added[LOSSLESS] = listing.count == 0;
}

vhart_totals totals_owed(const struct call *call)
{
    vhart_totals totals = call->totals;
    uint64_t added[TOTALS];
    if (refusal_owed(call) != 0) return totals;
    add_up(call, added);
    for (int i = 0; i < TOTALS; i++) put_total(&totals, i, (uint32_t)(get_total(&totals, i) + added[i]));
    return totals;
}
