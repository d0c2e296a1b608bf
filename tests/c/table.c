/* table.c: legality, refusals and the settings file by docs/RULES.md, a line for each condition, to
 * be read beside it.
 *
 * It is written from those rules and never from the library: where the two disagree, one of them
 * is wrong. */
#include "table.h"

#include "images.h"
#include "log.h"
#include "lost.h"

/* ---- words */

/* The mask of the bits first to last. */
static uint64_t bits(int first, int last)
{
    uint64_t mask = 0;
    for (int n = first; n <= last; n++) mask |= (uint64_t)1 << n;
    return mask;
}

static uint64_t bit(int n) { return bits(n, n); }

static uint64_t field(uint64_t word, int first, int last) { return (word & bits(first, last)) >> first; }

static int is_within(uint64_t word, uint64_t mask) { return (word & ~mask) == 0; }

/* ---- capabilities */

int has_s(const uint64_t *c) { return field(c[VHART_CAPS_MISA], 18, 18) == 1; }

int has_c(const uint64_t *c) { return field(c[VHART_CAPS_MISA], 2, 2) == 1; }

int has_f(const uint64_t *c) { return field(c[VHART_CAPS_MISA], 5, 5) == 1; }

static int has_v(const uint64_t *c) { return field(c[VHART_CAPS_MISA], 21, 21) == 1; }

int has_flag(const uint64_t *c, enum vhart_flag flag) { return (c[VHART_CAPS_FLAGS] & flag) != 0; }

/* A condition is what it makes of a value, and is met where that is the value: the rules say most
 * of them so. */

static uint64_t mxl_2(const uint64_t *c, uint64_t v) { return (void)c, (v & ~bits(62, 63)) | (uint64_t)2 << 62; }

static uint64_t with_u(const uint64_t *c, uint64_t v) { return (void)c, v | bit(20); }

static uint64_t without_h(const uint64_t *c, uint64_t v) { return (void)c, v & ~bit(7); }

static uint64_t without_n(const uint64_t *c, uint64_t v) { return (void)c, v & ~bit(13); }

static uint64_t to_flag_4(const uint64_t *c, uint64_t v) { return (void)c, v & bits(0, 4); }

static uint64_t without_zfinx_beside_f(const uint64_t *c, uint64_t v)
{
    return has_f(c) ? v & ~(uint64_t)VHART_FLAG_ZFINX : v;
}

static uint64_t sstc_with_s(const uint64_t *c, uint64_t v) { return has_s(c) ? v : v & ~(uint64_t)VHART_FLAG_SSTC; }

static uint64_t svpbmt_with_s(const uint64_t *c, uint64_t v) { return has_s(c) ? v : v & ~(uint64_t)VHART_FLAG_SVPBMT; }

static uint64_t below_2_32(const uint64_t *c, uint64_t v) { return (void)c, v & bits(0, 31); }

static uint64_t within_2aaa(const uint64_t *c, uint64_t v) { return (void)c, v & 0x2AAA; }

static uint64_t with_222_of_s(const uint64_t *c, uint64_t v) { return has_s(c) ? v | 0x222 : v; }

static uint64_t none_of_s(const uint64_t *c, uint64_t v)
{
    return has_s(c) ? v : v & ~(bit(1) | bit(5) | bit(9) | bit(13));
}

const struct condition caps_conditions[] = {
    {"misa 63:62 is 2", VHART_CAPS_MISA, mxl_2},
    {"U (bit 20) set", VHART_CAPS_MISA, with_u},
    {"H (7) clear", VHART_CAPS_MISA, without_h},
    {"N (13) clear", VHART_CAPS_MISA, without_n},
    {"no flag above bit 4", VHART_CAPS_FLAGS, to_flag_4},
    {"not Zfinx together with F", VHART_CAPS_FLAGS, without_zfinx_beside_f},
    {"Sstc only with S", VHART_CAPS_FLAGS, sstc_with_s},
    {"Svpbmt only with S", VHART_CAPS_FLAGS, svpbmt_with_s},
    {"mvendorid below 2^32", VHART_CAPS_MVENDORID, below_2_32},
    {"interrupts within 0x2AAA", VHART_CAPS_INTERRUPTS, within_2aaa},
    {"containing 0x222 with S", VHART_CAPS_INTERRUPTS, with_222_of_s},
    {"without S none of its own", VHART_CAPS_INTERRUPTS, none_of_s},
};
const size_t caps_conditions_count = sizeof caps_conditions / sizeof caps_conditions[0];

int is_met(const struct condition *condition, const uint64_t *c, const uint64_t *words)
{
    return condition->legal(c, words[condition->word]) == words[condition->word];
}

/* The lowest word that breaks one of the conditions, or `none`. */
static size_t illegal_word(const struct condition *conditions, size_t count, const uint64_t *c, const uint64_t *words,
                           size_t none)
{
    size_t lowest = none;
    for (size_t i = 0; i < count; i++) {
        if (conditions[i].word < lowest && !is_met(&conditions[i], c, words)) lowest = conditions[i].word;
    }
    return lowest;
}

size_t illegal_word_of_caps(const uint64_t *c)
{
    return illegal_word(caps_conditions, caps_conditions_count, c, c, VHART_CAPS_WORDS);
}

/* ---- what a register makes of a value */

uint64_t mpp_of(uint64_t mstatus) { return field(mstatus, 11, 12); }

uint64_t legal_mstatus(const uint64_t *c, uint64_t value)
{
    const uint64_t vs = bits(9, 10), mpp = bits(11, 12), fs = bits(13, 14);
    /* what is kept */
    uint64_t word = value & (bit(1) | bit(3) | bit(5) | bit(7) | bit(8) | vs | mpp | fs | bits(17, 22));
    /* MPP 2 becomes 0, and without S so does 1 */
    if (mpp_of(word) == 2 || (mpp_of(word) == 1 && !has_s(c))) word &= ~mpp;
    /* SIE, SPIE, SPP, SUM, MXR, TVM and TSR are 0 without S */
    if (!has_s(c)) word &= ~(bit(1) | bit(5) | bit(8) | bit(18) | bit(19) | bit(20) | bit(22));
    if (!has_s(c) && !has_f(c)) word &= ~fs;                     /* FS is 0 with neither S nor F */
    if (has_flag(c, VHART_FLAG_ZFINX)) word &= ~fs;              /* and with Zfinx */
    if (!has_s(c) && !has_v(c)) word &= ~vs;                     /* VS is 0 with neither S nor V */
    word |= (uint64_t)2 << 32;                                   /* UXL is 2 */
    if (has_s(c)) word |= (uint64_t)2 << 34;                     /* SXL is 2 with S */
    if ((word & fs) == fs || (word & vs) == vs) word |= bit(63); /* SD: FS or VS is 3 */
    return word;
}

uint64_t legal_mideleg(const uint64_t *c, uint64_t value)
{
    return (value & c[VHART_CAPS_INTERRUPTS] & ~(uint64_t)0x888) | 0x222; /* 0x222 is forced */
}

uint64_t legal_medeleg(const uint64_t *c, uint64_t value)
{
    return (void)c, value & 0xB3FF; /* value and 0xB3FF */
}

uint64_t legal_senvcfg(const uint64_t *c, uint64_t value)
{
    int zicbom = has_flag(c, VHART_FLAG_ZICBOM), zicboz = has_flag(c, VHART_FLAG_ZICBOZ);
    uint64_t word = value & bit(0);                                    /* FIOM */
    if (zicbom && field(value, 4, 5) != 2) word |= value & bits(4, 5); /* CBIE, 2 becomes 0 */
    if (zicbom) word |= value & bit(6);                                /* CBCFE */
    if (zicboz) word |= value & bit(7);                                /* CBZE */
    return word;
}

uint64_t legal_menvcfg(const uint64_t *c, uint64_t value)
{
    uint64_t word = legal_senvcfg(c, value);                     /* the same, and */
    if (has_flag(c, VHART_FLAG_SVPBMT)) word |= value & bit(62); /* PBMTE */
    if (has_flag(c, VHART_FLAG_SSTC)) word |= value & bit(63);   /* STCE */
    return word;
}

uint64_t aligned(const uint64_t *c, uint64_t address)
{
    return address - address % (has_c(c) ? 2 : 4); /* to 2 with C, to 4 without */
}

static int is_aligned(const uint64_t *c, uint64_t address) { return aligned(c, address) == address; }

/* ---- a legal record */

static uint64_t zero(const uint64_t *c, uint64_t v) { return (void)c, (void)v, 0; }

static uint64_t a_mode(const uint64_t *c, uint64_t v) { return v == 0 || (v == 1 && has_s(c)) || v == 3 ? v : 3; }

static uint64_t zero_or_one(const uint64_t *c, uint64_t v) { return (void)c, v & 1; }

static uint64_t mideleg_of_s(const uint64_t *c, uint64_t v) { return has_s(c) ? legal_mideleg(c, v) : v; }

static uint64_t within_aaa(const uint64_t *c, uint64_t v) { return v & c[VHART_CAPS_INTERRUPTS] & 0xAAA; }

static uint64_t within_interrupts(const uint64_t *c, uint64_t v) { return v & c[VHART_CAPS_INTERRUPTS]; }

static uint64_t tvec_mode(const uint64_t *c, uint64_t v) { return (void)c, field(v, 0, 1) <= 1 ? v : v & ~bit(1); }

static uint64_t at_most_7(const uint64_t *c, uint64_t v) { return (void)c, v <= 7 ? v : v & 7; }

static uint64_t within_5(const uint64_t *c, uint64_t v) { return (void)c, v & 5; }

static uint64_t satp_mode(const uint64_t *c, uint64_t v)
{
    return (void)c, field(v, 60, 63) == 0 || field(v, 60, 63) == 8 ? v : v & ~bits(60, 62);
}

static uint64_t zero_without_s(const uint64_t *c, uint64_t v) { return has_s(c) ? v : 0; }

static uint64_t zero_without_sstc(const uint64_t *c, uint64_t v) { return has_flag(c, VHART_FLAG_SSTC) ? v : 0; }

const struct condition hart_conditions[] = {
    {"x0 is 0", VHART_HART_X0, zero},
    {"mode is 0, 1 with S, or 3", VHART_HART_MODE, a_mode},
    {"waiting is 0 or 1", VHART_HART_WAITING, zero_or_one},
    {"pc aligned", VHART_HART_PC, aligned},
    {"mepc aligned", VHART_HART_MEPC, aligned},
    {"sepc aligned", VHART_HART_SEPC, aligned},
    {"mstatus legalized", VHART_HART_MSTATUS, legal_mstatus},
    {"menvcfg legalized", VHART_HART_MENVCFG, legal_menvcfg},
    {"senvcfg legalized", VHART_HART_SENVCFG, legal_senvcfg},
    {"medeleg legalized", VHART_HART_MEDELEG, legal_medeleg},
    {"with S mideleg legalized", VHART_HART_MIDELEG, mideleg_of_s},
    {"mie within both", VHART_HART_MIE, within_aaa},
    {"mip within interrupts", VHART_HART_MIP, within_interrupts},
    {"mtvec mode 0 or 1", VHART_HART_MTVEC, tvec_mode},
    {"stvec mode 0 or 1", VHART_HART_STVEC, tvec_mode},
    {"mcounteren at most 7", VHART_HART_MCOUNTEREN, at_most_7},
    {"scounteren at most 7", VHART_HART_SCOUNTEREN, at_most_7},
    {"mcountinhibit within 5", VHART_HART_MCOUNTINHIBIT, within_5},
    {"satp mode 0 or 8", VHART_HART_SATP, satp_mode},
    {"without S mideleg is 0", VHART_HART_MIDELEG, zero_without_s},
    {"without S medeleg is 0", VHART_HART_MEDELEG, zero_without_s},
    {"without S stvec is 0", VHART_HART_STVEC, zero_without_s},
    {"without S scounteren is 0", VHART_HART_SCOUNTEREN, zero_without_s},
    {"without S senvcfg is 0", VHART_HART_SENVCFG, zero_without_s},
    {"without S sscratch is 0", VHART_HART_SSCRATCH, zero_without_s},
    {"without S sepc is 0", VHART_HART_SEPC, zero_without_s},
    {"without S scause is 0", VHART_HART_SCAUSE, zero_without_s},
    {"without S stval is 0", VHART_HART_STVAL, zero_without_s},
    {"without S satp is 0", VHART_HART_SATP, zero_without_s},
    {"without Sstc stimecmp is 0", VHART_HART_STIMECMP, zero_without_sstc}, /* and so without S */
};
const size_t hart_conditions_count = sizeof hart_conditions / sizeof hart_conditions[0];

size_t illegal_word_of_hart(const uint64_t *c, const uint64_t *h)
{
    return illegal_word(hart_conditions, hart_conditions_count, c, h, VHART_HART_WORDS);
}

/* ---- addresses, the read-only ones first */

#define ONE(address) {address, address}

const struct csrs csrs[] = {
    ONE(0xF11),      /* mvendorid */
    ONE(0xF12),      /* marchid */
    ONE(0xF13),      /* mimpid */
    ONE(0xF14),      /* mhartid */
    ONE(0xF15),      /* mconfigptr */
    ONE(0x301),      /* misa */
    ONE(0xC00),      /* cycle */
    ONE(0xC02),      /* instret */
    ONE(0xC01),      /* time */
    ONE(0x015),      /* seed */
    {0xB03, 0xB1F},  /* mhpmcounter3..31 */
    {0x323, 0x33F},  /* mhpmevent3..31 */
    ONE(0x5A8),      /* scontext */
    ONE(0x340),      /* mscratch */
    ONE(0x342),      /* mcause */
    ONE(0x343),      /* mtval */
    ONE(0xB00),      /* mcycle */
    ONE(0xB02),      /* minstret */
    ONE(0x140),      /* sscratch */
    ONE(0x142),      /* scause */
    ONE(0x143),      /* stval */
    ONE(0x14D),      /* stimecmp */
    ONE(0x7A0),      /* tselect */
    ONE(0x300),      /* mstatus */
    ONE(0x100),      /* sstatus */
    ONE(0x304),      /* mie */
    ONE(0x104),      /* sie */
    ONE(0x344),      /* mip */
    ONE(0x144),      /* sip */
    ONE(0x303),      /* mideleg */
    ONE(0x302),      /* medeleg */
    ONE(0x305),      /* mtvec */
    ONE(0x105),      /* stvec */
    ONE(0x341),      /* mepc */
    ONE(0x141),      /* sepc */
    ONE(0x180),      /* satp */
    ONE(0x306),      /* mcounteren */
    ONE(0x106),      /* scounteren */
    ONE(0x320),      /* mcountinhibit */
    ONE(0x30A),      /* menvcfg */
    ONE(0x10A),      /* senvcfg */
};
const size_t csrs_count = sizeof csrs / sizeof csrs[0];

int is_csr(uint64_t address)
{
    for (size_t i = 0; i < csrs_count; i++) {
        if (csrs[i].first <= address && address <= csrs[i].last) return 1;
    }
    return 0;
}

int is_csr_absent(const uint64_t *c, uint64_t address)
{
    return (!has_s(c) && (address == 0x303 || address == 0x302))   /* mideleg, medeleg without S */
           || (!has_s(c) && field(address, 8, 9) == 1)             /* S registers without S */
           || (!has_flag(c, VHART_FLAG_SSTC) && address == 0x14D); /* stimecmp without Sstc */
}

/* ---- the settings file */

#define IMAGE 6 /* the byte at which its capability image begins */

void put_settings(uint8_t *file, const uint8_t *caps)
{
    file[0] = 'V'; /* the mark */
    file[1] = 'H';
    file[2] = 'R';
    file[3] = 1; /* the version */
    file[4] = 0;
    file[5] = 0;
    for (size_t i = 0; i < VHART_CAPS_BYTES; i++) file[IMAGE + i] = caps[i];
}

/* ---- the table of refusals */

/* A call as the rows see it: with the words of its images, where their lengths are right. */
struct question {
    const struct call *call;
    uint64_t c[VHART_CAPS_WORDS], h[VHART_HART_WORDS];
};

static int is_caps_bad(const struct question *q)
{
    return q->call->caps.length != VHART_CAPS_BYTES           /* not 72 bytes */
           || illegal_word_of_caps(q->c) != VHART_CAPS_WORDS; /* or not legal */
}

static int is_hart_bad(const struct question *q)
{
    return q->call->hart.length != VHART_HART_BYTES /* not 480 bytes */
           || (tests_record(q->call->entry)         /* or not legal */
               && illegal_word_of_hart(q->c, q->h) != VHART_HART_WORDS);
}

static int is_address_unknown(const struct question *q) { return !is_csr(q->call->numbers[0]); }

static int is_address_absent(const struct question *q) { return is_csr_absent(q->c, q->call->numbers[0]); }

static int is_operand_above(const struct question *q) { return q->call->numbers[1] > 31 || q->call->numbers[2] > 31; }

static int is_mode_other(const struct question *q) { return q->h[VHART_HART_MODE] != 3; }

static int is_s_lacking(const struct question *q) { return !has_s(q->c); }

static int is_interrupt_bad(const struct question *q)
{
    uint64_t number = q->call->numbers[0];
    return number > 63 || (q->c[VHART_CAPS_INTERRUPTS] & bit((int)number)) == 0;
}

static int is_cause_interrupt(const struct question *q) { return field(q->call->numbers[0], 63, 63) == 1; }

static int is_trap_bad(const struct question *q)
{
    uint64_t mepc = q->call->numbers[2], mip = q->call->numbers[3], mstatus = q->call->numbers[4];
    uint64_t mode = q->h[VHART_HART_MODE];
    return !is_aligned(q->c, mepc)                                   /* mepc not aligned */
           || !is_within(mip, q->c[VHART_CAPS_INTERRUPTS])           /* mip outside interrupts */
           || (mode != 3 && mstatus != legal_mstatus(q->c, mstatus)) /* mstatus not legal */
           || (mode != 3 && mpp_of(mstatus) != mode);                /* its MPP not the mode */
}

static int is_start_bad(const struct question *q) { return !is_aligned(q->c, q->call->numbers[0]); }

static int is_line_bad(const struct question *q) { return q->call->numbers[line_at(q->call->entry)] > 1; }

static int is_total_full(const struct question *q)
{
    uint64_t added[TOTALS];
    int is_full = 0;
    add_up(q->call, added);
    for (int i = 0; i < TOTALS; i++) is_full |= get_total(&q->call->totals, i) + added[i] > 4294967295; /* 2^32 - 1 */
    return is_full;
}

/* Of a call log. */

static int is_wait_bad(const struct question *q)
{
    return q->call->wait.length != 24      /* not 24 bytes */
           || q->call->wait.bytes[0] > 23; /* or more than an entry can lack */
}

static int is_entry_waiting(const struct question *q) { return q->call->wait.bytes[0] != 0; }

static int is_out_short(const struct question *q) { return q->call->out.length < 24 * entries_completed(q->call); }

/* Of a settings file. The rows before have seen to it that it has the bytes that a row looks at. */

static int is_head_cut(const struct question *q) { return q->call->hart.length < 6; }

static int is_mark_bad(const struct question *q)
{
    const uint8_t *file = q->call->hart.bytes;
    return file[0] != 'V' || file[1] != 'H' || file[2] != 'R' /* not the mark */
           || file[5] != 0;                                   /* or the sixth byte isn't 0 */
}

static int is_version_unknown(const struct question *q)
{
    const uint8_t *file = q->call->hart.bytes;
    return file[3] + 256 * file[4] != 1; /* little-endian, and 1 alone is known */
}

static int is_file_length_other(const struct question *q) { return q->call->hart.length != 78; }

static int is_file_image_bad(const struct question *q)
{
    uint64_t c[VHART_CAPS_WORDS];
    get_words(c, q->call->hart.bytes + IMAGE, VHART_CAPS_WORDS);
    return illegal_word_of_caps(c) != VHART_CAPS_WORDS;
}

#define OF(entry) (1u << (entry))

enum {
    EVERY = (1 << ENTRIES) - 1,
    FILES = OF(SETTINGS_READ) | OF(SETTINGS_WRITE),
    LOGS = OF(REPLAY) | OF(REPLAY_END),
    INSTRUCTIONS = OF(CSRRW) | OF(CSRRS) | OF(CSRRC) | OF(CSRRWI) | OF(CSRRSI) | OF(CSRRCI),
    READING = OF(READ) | OF(PLAIN_READ) | INSTRUCTIONS,
    ADDRESSED = READING | OF(WRITE) | OF(PLAIN_WRITE) | OF(EXPLAIN) | OF(TALLY)
};

/* The table's rows in the table's order: the number, the entries that it is about, and when it
 * is given. settings_read has an order of its own, in the last rows. */
static const struct row {
    uint64_t number;
    unsigned of;
    int (*applies)(const struct question *);
} rows[] = {
    {1, EVERY & ~OF(SETTINGS_READ), is_caps_bad},           /* capability image */
    {2, EVERY & ~(OF(CHECK_CAPS) | FILES), is_hart_bad},    /* hart image */
    {2, LOGS, is_wait_bad},                                 /* waiting bytes */
    {3, ADDRESSED, is_address_unknown},                     /* no such address */
    {4, ADDRESSED, is_address_absent},                      /* the hart lacks the CSR */
    {5, INSTRUCTIONS, is_operand_above},                    /* rd, rs1, immediate */
    {6, INSTRUCTIONS | OF(MRET) | OF(SRET), is_mode_other}, /* the mode isn't 3 */
    {7, OF(SRET), is_s_lacking},                            /* sret without S */
    {8, OF(INJECT), is_interrupt_bad},                      /* no interrupt of the hart */
    {9, OF(TRAP), is_cause_interrupt},                      /* mcause has bit 63 */
    {10, OF(TRAP), is_trap_bad},                            /* the trap is bad in another way */
    {11, OF(FRESH), is_start_bad},                          /* start pc not aligned */
    {15, READING, is_line_bad},                             /* line neither 0 nor 1 */
    {16, OF(TALLY), is_total_full},                         /* a total would pass its limit */
    {18, OF(REPLAY_END), is_entry_waiting},                 /* an entry isn't whole */
    {23, OF(REPLAY), is_out_short},                         /* no room for what is put out */
    {12, OF(SETTINGS_READ), is_head_cut},                   /* fewer than 6 bytes */
    {13, OF(SETTINGS_READ), is_mark_bad},                   /* mark, or sixth byte */
    {14, OF(SETTINGS_READ), is_version_unknown},            /* another version than 1 */
    {12, FILES, is_file_length_other},                      /* not 78 bytes */
    {1, OF(SETTINGS_READ), is_file_image_bad},              /* the file's capability image */
};

#define ROWS (sizeof rows / sizeof rows[0])

static void ask(struct question *q, const struct call *call)
{
    q->call = call;
    if (call->caps.length == VHART_CAPS_BYTES) get_words(q->c, call->caps.bytes, VHART_CAPS_WORDS);
    if (call->hart.length == VHART_HART_BYTES) get_words(q->h, call->hart.bytes, VHART_HART_WORDS);
}

/* The number of the first row that applies is given. */
uint64_t refusal_owed(const struct call *call)
{
    struct question q = {call, {0}, {0}};
    ask(&q, call);
    for (size_t i = 0; i < ROWS; i++) {
        if ((rows[i].of & OF(call->entry)) != 0 && rows[i].applies(&q)) return rows[i].number;
    }
    return 0;
}

unsigned refusals_applying(const struct call *call)
{
    struct question q = {call, {0}, {0}};
    unsigned all = 0;
    ask(&q, call);
    for (size_t i = 0; i < ROWS; i++) {
        if ((rows[i].of & OF(call->entry)) != 0 && rows[i].applies(&q)) all |= 1u << rows[i].number;
    }
    return all;
}

int can_give(enum entry entry, uint64_t refusal)
{
    int can = refusal == 0;
    for (size_t i = 0; i < ROWS; i++) can = can || (rows[i].number == refusal && (rows[i].of & OF(entry)) != 0);
    return can;
}

int tests_record(enum entry entry) { return entry != FRESH && entry != CHECK_CAPS && !is_on_file(entry); }

void words_owed(const struct call *call, uint64_t *words)
{
    for (int i = 0; i < VHART_CAPS_WORDS; i++) words[i] = 0;
    if (refusal_owed(call) == 0) get_words(words, call->hart.bytes + IMAGE, VHART_CAPS_WORDS);
}

/* A wrong length is told as the number of words that there should be, with value 0. */
vhart_fault fault_owed(const struct call *call)
{
    struct question q = {call, {0}, {0}};
    vhart_fault fault = {refusal_owed(call), 0, 0};
    ask(&q, call);
    if (fault.refusal == VHART_BAD_CAPS) {
        fault.word = call->caps.length == VHART_CAPS_BYTES ? illegal_word_of_caps(q.c) : VHART_CAPS_WORDS;
        if (fault.word < VHART_CAPS_WORDS) fault.value = q.c[fault.word];
    }
    if (fault.refusal == VHART_BAD_HART) {
        fault.word = call->hart.length == VHART_HART_BYTES ? illegal_word_of_hart(q.c, q.h) : VHART_HART_WORDS;
        if (fault.word < VHART_HART_WORDS) fault.value = q.h[fault.word];
    }
    return fault;
}
