/* images.h: what the words of the two images are called, and all words of an image at once. */
#ifndef IMAGES_H
#define IMAGES_H

#include "vhart.h"

/* The words by the names of docs/RULES.md, each at the header's index. */
static const char *const caps_words[VHART_CAPS_WORDS] = {
    [VHART_CAPS_MISA] = "misa",       [VHART_CAPS_INTERRUPTS] = "interrupts", [VHART_CAPS_HIGHEST] = "highest",
    [VHART_CAPS_FLAGS] = "flags",     [VHART_CAPS_MHARTID] = "mhartid",       [VHART_CAPS_MVENDORID] = "mvendorid",
    [VHART_CAPS_MARCHID] = "marchid", [VHART_CAPS_MIMPID] = "mimpid",         [VHART_CAPS_MCONFIGPTR] = "mconfigptr",
};

static const char *const hart_words[VHART_HART_WORDS] = {
    [VHART_HART_X0] = "x0", "x1", "x2", "x3", "x4", "x5", "x6", "x7", "x8", "x9", "x10", "x11", "x12", "x13", "x14",
    "x15", "x16", "x17", "x18", "x19", "x20", "x21", "x22", "x23", "x24", "x25", "x26", "x27", "x28", "x29", "x30",
    "x31",
    [VHART_HART_PC] = "pc",
    [VHART_HART_MODE] = "mode",
    [VHART_HART_WAITING] = "waiting",
    [VHART_HART_MSTATUS] = "mstatus",
    [VHART_HART_MIE] = "mie",
    [VHART_HART_MIP] = "mip",
    [VHART_HART_MIDELEG] = "mideleg",
    [VHART_HART_MEDELEG] = "medeleg",
    [VHART_HART_MTVEC] = "mtvec",
    [VHART_HART_MCOUNTEREN] = "mcounteren",
    [VHART_HART_MCOUNTINHIBIT] = "mcountinhibit",
    [VHART_HART_MENVCFG] = "menvcfg",
    [VHART_HART_MSCRATCH] = "mscratch",
    [VHART_HART_MEPC] = "mepc",
    [VHART_HART_MCAUSE] = "mcause",
    [VHART_HART_MTVAL] = "mtval",
    [VHART_HART_MCYCLE] = "mcycle",
    [VHART_HART_MINSTRET] = "minstret",
    [VHART_HART_TSELECT] = "tselect",
    [VHART_HART_STVEC] = "stvec",
    [VHART_HART_SCOUNTEREN] = "scounteren",
    [VHART_HART_SENVCFG] = "senvcfg",
    [VHART_HART_SSCRATCH] = "sscratch",
    [VHART_HART_SEPC] = "sepc",
    [VHART_HART_SCAUSE] = "scause",
    [VHART_HART_STVAL] = "stval",
    [VHART_HART_SATP] = "satp",
    [VHART_HART_STIMECMP] = "stimecmp",
};

static inline void get_words(uint64_t *words, const uint8_t *image, size_t count)
{
    for (size_t i = 0; i < count; i++) words[i] = vhart_get(image, i);
}

static inline void put_words(uint8_t *image, const uint64_t *words, size_t count)
{
    for (size_t i = 0; i < count; i++) vhart_put(image, i, words[i]);
}

#endif
