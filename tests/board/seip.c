/* seip.c: CSR instructions on mip and sip, run by the machine and by the library from the same
 * state, while the PLIC (the interrupt controller) raises the line of SEIP and while it doesn't. */
#include "board.h"
#include "vhart.h"

#include <stdio.h>
#include <stdlib.h>

/* What the library is told of the line, and what stands of it in the record. The gate also builds
 * each of the two wrong, and then must see what differs. */
#ifndef LINE_TOLD
#define LINE_TOLD trial->line
#endif
#ifndef LINE_STORED
#define LINE_STORED 0
#endif

#define COUNT(table) (sizeof(table) / sizeof(table)[0])

/* ---- what is tried */

enum { RD = 10 }; /* x10 also has the operand: C passes a number there, and gives one back */

static const struct csr {
    const char *name;
    uint32_t address;
} csrs[] = {{"mip", VHART_CSR_MIP}, {"sip", VHART_CSR_SIP}};

static const struct instruction {
    const char *name;
    uint32_t kind; /* bits 14:12 of its code; from 4 on the operand is an immediate */
    vhart_outcome (*call)(const uint8_t *caps, size_t caps_len, uint8_t *hart, size_t hart_len, uint64_t address,
                          uint64_t rd, uint64_t source, uint64_t time, uint64_t seed, uint64_t line);
} instructions[] = {
    {"csrrw", 1, vhart_csrrw},   {"csrrs", 2, vhart_csrrs},   {"csrrc", 3, vhart_csrrc},
    {"csrrwi", 5, vhart_csrrwi}, {"csrrsi", 6, vhart_csrrsi}, {"csrrci", 7, vhart_csrrci},
};

/* Where the operand comes from, and what x10 holds before. */
static const struct source {
    int is_immediate;
    uint32_t number; /* of the register, or the immediate itself */
    uint64_t x10;
} sources[] = {
    {0, 0, 0x222},  {0, 10, 0},     {0, 10, 0x2},   {0, 10, 0x20},       {0, 10, 0x200},
    {0, 10, 0x202}, {0, 10, 0x222}, {0, 10, 0x888}, {0, 10, UINT64_MAX},
    {1, 0, 0x222},  {1, 2, 0x222},  {1, 8, 0x222},  {1, 10, 0x222},      {1, 31, 0x222},
};

/* What software stored in mip before. */
static const uint64_t starts[] = {0, 0x2, 0x20, 0x200, 0x202, 0x222};

struct trial {
    const struct csr *csr;
    const struct instruction *instruction;
    const struct source *source;
    uint64_t start, line;
};

/* What comes of a trial: the value read; x10, mip and sip after it; mip as stored, which is without
 * the line; and the effect: what the library asks for, or what happened to the stored SEIP. */
enum { ANSWER, X10, MIP, SIP, STORED, EFFECT, WORDS };
static const char *const names[WORDS] = {"answer", "x10", "mip", "sip", "stored", "effect"};

/* ---- the machine */

#define INTERRUPTS 0xAAA /* the library's hart has these; qemu's has more, which aren't compared */

#define MTIMECMP ((volatile uint64_t *)0x2004000)        /* of hart 0 */
#define UART_INTERRUPTS ((volatile uint8_t *)0x10000001) /* those that it raises */
#define UART_CAN_SEND 2                                  /* raised while it takes the next byte */

/* The UART is the PLIC's source 10. Its context 1 is mode S of hart 0, whose line is SEIP's. */
#define PLIC(offset) ((volatile uint32_t *)(0xC000000 + (offset)))
#define PLIC_PRIORITY PLIC(4 * 10)
#define PLIC_ENABLED PLIC(0x2000 + 0x80 * 1)
#define PLIC_THRESHOLD PLIC(0x200000 + 0x1000 * 1)

static uint64_t machine_mip(void)
{
    uint64_t mip;
    __asm__ volatile("csrr %0, mip" : "=r"(mip) : : "memory");
    return mip & INTERRUPTS;
}

static uint64_t machine_sip(void)
{
    uint64_t sip;
    __asm__ volatile("csrr %0, sip" : "=r"(sip) : : "memory");
    return sip & INTERRUPTS;
}

static void store_mip(uint64_t value) { __asm__ volatile("csrw mip, %0" : : "r"(value) : "memory"); }

/* By the threshold: qemu's PLIC doesn't move the line when a source is enabled or disabled. */
static void set_line(uint64_t line) { *PLIC_THRESHOLD = line ? 0 : 7; }

/* No interrupt is enabled, so none is taken. */
static void prepare_machine(void)
{
    __asm__ volatile("csrw mie, zero");
    __asm__ volatile("csrw mideleg, %0" : : "r"(0x222));
    *MTIMECMP = UINT64_MAX; /* else MTIP is up */
    set_line(0);
    *PLIC_PRIORITY = 1;
    *PLIC_ENABLED = 1 << 10;
    *UART_INTERRUPTS = UART_CAN_SEND;
}

/* Puts the instruction together, so that the machine has the same numbers as the library. */
static uint64_t run(const struct trial *trial)
{
    static uint32_t code[2];
    code[0] = trial->csr->address << 20 | trial->source->number << 15 | trial->instruction->kind << 12;
    code[0] |= RD << 7 | 0x73;
    code[1] = 0x8067; /* ret */
    __asm__ volatile("fence.i" : : : "memory");
    return ((uint64_t (*)(uint64_t))(uintptr_t)code)(trial->source->x10);
}

/* The line is down before and after: then mip shows what is stored. */
static void try_on_machine(const struct trial *trial, uint64_t *came)
{
    store_mip(0);
    set_line(trial->line);
    if (machine_mip() != trial->line * VHART_MIP_SEIP) {
        printf("with nothing stored and line %lu mip is 0x%lx\n", trial->line, machine_mip());
        exit(2);
    }
    store_mip(trial->start);
    came[ANSWER] = came[X10] = run(trial) & INTERRUPTS;
    came[MIP] = machine_mip();
    came[SIP] = machine_sip();
    set_line(0);
    came[STORED] = machine_mip();
    came[EFFECT] = VHART_EFFECT_NONE;
    if (came[STORED] & ~trial->start & VHART_MIP_SEIP) came[EFFECT] = VHART_EFFECT_SET_SEIP;
    if (trial->start & ~came[STORED] & VHART_MIP_SEIP) came[EFFECT] = VHART_EFFECT_CLEAR_SEIP;
}

/* ---- the library */

#define IMAGES (const uint8_t *)caps, VHART_CAPS_BYTES, hart, VHART_HART_BYTES

static uint64_t answer_of(vhart_outcome outcome)
{
    if (outcome.refusal != VHART_DONE) {
        printf("the library refuses with %lu\n", outcome.refusal);
        exit(2);
    }
    return outcome.answer;
}

static void try_in_library(const struct trial *trial, uint64_t *came)
{
    static const uint64_t caps[VHART_CAPS_WORDS] = {
        [VHART_CAPS_MISA] = VHART_MISA_RV64 | VHART_MISA_A | VHART_MISA_C | VHART_MISA_I | VHART_MISA_M |
                            VHART_MISA_S | VHART_MISA_U,
        [VHART_CAPS_INTERRUPTS] = INTERRUPTS,
    };
    _Alignas(8) static uint8_t hart[VHART_HART_BYTES];
    answer_of(vhart_fresh(IMAGES, 0));
    vhart_put(hart, VHART_HART_MIP, trial->start | LINE_STORED * VHART_MIP_SEIP);
    vhart_put(hart, VHART_HART_X0 + RD, trial->source->x10);
    vhart_outcome outcome =
        trial->instruction->call(IMAGES, trial->csr->address, RD, trial->source->number, 0, 0, LINE_TOLD);
    came[ANSWER] = answer_of(outcome);
    came[X10] = vhart_get(hart, VHART_HART_X0 + RD);
    came[MIP] = answer_of(vhart_read(IMAGES, VHART_CSR_MIP, 0, 0, LINE_TOLD));
    came[SIP] = answer_of(vhart_read(IMAGES, VHART_CSR_SIP, 0, 0, LINE_TOLD));
    came[STORED] = vhart_get(hart, VHART_HART_MIP);
    came[EFFECT] = outcome.effect;
}

/* ---- the comparison */

static void print_words(const char *whose, const uint64_t *words)
{
    printf("; %s:", whose);
    for (int i = 0; i < WORDS; i++) printf(" %s 0x%lx", names[i], words[i]);
}

static int is_same(const struct trial *trial)
{
    uint64_t machine[WORDS], library[WORDS];
    int i = 0;
    try_on_machine(trial, machine);
    try_in_library(trial, library);
    while (i < WORDS && machine[i] == library[i]) i++;
    if (i == WORDS) return 1;
    printf("%s x10, %s, %s%u with x10 0x%lx, stored 0x%lx, line %lu", trial->instruction->name,
           trial->csr->name, trial->source->is_immediate ? "" : "x", trial->source->number, trial->source->x10,
           trial->start, trial->line);
    print_words("machine", machine);
    print_words("library", library);
    printf("\n");
    return 0;
}

static unsigned tried, differ;

static void try_from_each_state(const struct csr *csr, const struct instruction *instruction,
                                const struct source *source)
{
    for (size_t i = 0; i < COUNT(starts); i++) {
        for (uint64_t line = 0; line < 2; line++) {
            struct trial trial = {csr, instruction, source, starts[i], line};
            tried++;
            if (!is_same(&trial)) differ++;
        }
    }
}

int main(void)
{
    prepare_machine();
    for (size_t c = 0; c < COUNT(csrs); c++) {
        for (size_t i = 0; i < COUNT(instructions); i++) {
            for (size_t s = 0; s < COUNT(sources); s++) {
                if (sources[s].is_immediate != (instructions[i].kind >= 4)) continue;
                try_from_each_state(&csrs[c], &instructions[i], &sources[s]);
            }
        }
    }
    printf("%u instructions on mip and sip beside the machine's, %u differ\n", tried, differ);
    return differ != 0;
}
