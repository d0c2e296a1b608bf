/* boot.h: what the payload and the firmware share: CSRs, the trap last seen, and lines of text. */
#ifndef BOOT_H
#define BOOT_H

#include <stdint.h>

/* csr is its name: READ(sip). */
#define READ(csr)                                                       \
    (__extension__({                                                    \
        uint64_t value_;                                                \
        __asm__ volatile("csrr %0, " #csr : "=r"(value_) : : "memory"); \
        value_;                                                         \
    }))
#define WRITE(csr, value) __asm__ volatile("csrw " #csr ", %0" : : "r"((uint64_t)(value)) : "memory")
#define SET(csr, bits) __asm__ volatile("csrs " #csr ", %0" : : "r"((uint64_t)(bits)) : "memory")
#define CLEAR(csr, bits) __asm__ volatile("csrc " #csr ", %0" : : "r"((uint64_t)(bits)) : "memory")

#define MIP_SSIP (1ul << 1)
#define MIP_MSIP (1ul << 3)
#define MIP_STIP (1ul << 5)
#define MIP_MTIP (1ul << 7)
#define MIP_SEIP (1ul << 9)

#define INTERRUPT (1ul << 63) /* in mcause and scause */
#define SV39 (8ul << 60)      /* in satp */

/* In a page table: what a leaf allows. Accessed and dirty are set: some harts trap without them. */
#define PAGE_V 0x01ul
#define PAGE_R 0x02ul
#define PAGE_W 0x04ul
#define PAGE_X 0x08ul
#define PAGE_U 0x10ul
#define PAGE_AD 0xC0ul
#define GIGAPAGE(address, allows) ((uint64_t)(address) >> 2 | (allows) | PAGE_V | PAGE_AD)

/* The last trap, as the handler saw it. */
struct trap {
    uint64_t came; /* how many since this was set to 0 */
    uint64_t cause, value, pc;
};
extern volatile struct trap trap;

/* Where to go on behind the instruction at pc, of 16 or 32 bits. */
uint64_t behind(uint64_t pc);

/* Runs code that works on a0, and may use ra, t0, a1, a2 and a7; then says what came of it. */
#define TRY(what, code, operand) TRY_WITH(what, code, operand, 0)

/* The same, with a second operand in a1. */
#define TRY_WITH(what, code, operand, second)                                               \
    do {                                                                                    \
        uint64_t first_ = (operand), second_ = (second);                                    \
        trap.came = 0;                                                                      \
        register uint64_t a0_ __asm__("a0") = first_;                                       \
        register uint64_t a1_ __asm__("a1") = second_;                                      \
        __asm__ volatile(code : "+r"(a0_), "+r"(a1_) : : "ra", "t0", "a2", "a7", "memory"); \
        tell(what, a0_);                                                                    \
    } while (0)

/* Each of the two has its own. */
void put(char byte);

void say(const char *text);
void say_hex(uint64_t value);
void say_word(const char *what, const char *word);
void say_value(const char *what, uint64_t value);

/* The trap, if one came; else the value. */
void tell(const char *what, uint64_t value);

#endif
