/* payload.c: what runs in S mode behind OpenSBI: it uses what a kernel uses of the firmware and of
 * the hart, and prints what it sees: the same in each run, with a monitor and without one. */
#include "boot.h"

#define SSTATUS_SIE (1ul << 1)
#define SSTATUS_SPP (1ul << 8)
#define SSTATUS_FS (3ul << 13)

#define MEMORY 0x80000000ul          /* the firmware's is at its start */
#define HIGH 0xFFFFFFC000000000ul    /* where the upper half of Sv39 begins; run_high has it too */
#define NOWHERE 0xFFFFFFFF00000000ul /* not mapped */

#define NEVER UINT64_MAX
#define MILLISECOND 10000ul /* in ticks of the board's time */

void payload(uint64_t hart) __attribute__((noreturn));
void trapped(const uint64_t *x);
void vector(void);
void user_calls(uint64_t count);
void run_high(void (*function)(void));

/* ---- the firmware's calls */

enum { SBI_PUT = 1, SBI_BASE = 0x10, SBI_TIME = 0x54494D45, SBI_IPI = 0x735049 };
enum { SBI_FENCE = 0x52464E43, SBI_HART = 0x48534D, SBI_RESET = 0x53525354 };

/* For TRY: SBI's first call for an IPI, by which a0 points to the mask of harts. */
#define SEND_IPI "li a7, 4\n ecall"

struct answer {
    uint64_t error, value;
};

static struct answer sbi(uint64_t extension, uint64_t function, uint64_t first, uint64_t second)
{
    register uint64_t a0 __asm__("a0") = first;
    register uint64_t a1 __asm__("a1") = second;
    register uint64_t a2 __asm__("a2") = 0;
    register uint64_t a6 __asm__("a6") = function;
    register uint64_t a7 __asm__("a7") = extension;
    __asm__ volatile("ecall" : "+r"(a0), "+r"(a1) : "r"(a2), "r"(a6), "r"(a7) : "memory");
    return (struct answer){a0, a1};
}

void put(char byte) { sbi(SBI_PUT, 0, (uint8_t)byte, 0); }

static void set_timer(uint64_t when) { sbi(SBI_TIME, 0, when, 0); }

static uint64_t version(void) { return sbi(SBI_BASE, 0, 0, 0).value; }

/* Retentive: it comes back from here when an interrupt is pending. */
static void suspend(void) { sbi(SBI_HART, 3, 0, 0); }

/* ---- traps */

static volatile uint64_t timers, softwares, calls, sstatus_then;

static void interrupted(uint64_t number)
{
    if (number == 5) {
        timers++;
        set_timer(NEVER);
    } else if (number == 1) {
        softwares++;
        CLEAR(sip, MIP_SSIP);
    } else {
        say_value("an interrupt that nobody asked for", number);
    }
}

void trapped(const uint64_t *x)
{
    uint64_t cause = READ(scause), pc = READ(sepc), value = READ(stval);
    sstatus_then = READ(sstatus);
    if ((cause & INTERRUPT) != 0) {
        interrupted(cause & ~INTERRUPT);
    } else if (cause == 8) {
        calls++;
        if (x[10] == 0) SET(sstatus, SSTATUS_SPP);
        pc += 4;
    } else {
        trap.came++;
        trap.cause = cause;
        trap.value = value;
        trap.pc = pc;
        pc = behind(pc);
    }
    WRITE(sepc, pc);
}

/* ---- what is tried */

/* Sleeps until the count moves. Interrupts are off while it looks, so that none is missed. */
static void wait_for(const volatile uint64_t *count, uint64_t old)
{
    for (;;) {
        CLEAR(sstatus, SSTATUS_SIE);
        if (*count != old) break;
        __asm__ volatile("wfi");
        SET(sstatus, SSTATUS_SIE);
    }
    SET(sstatus, SSTATUS_SIE);
}

static void try_interrupts(void)
{
    set_timer(NEVER); /* a reset may leave it anywhere, and the interrupt pending */
    WRITE(sie, MIP_SSIP | MIP_STIP | MIP_SEIP);
    SET(sstatus, SSTATUS_SIE);
    for (int i = 0; i < 10; i++) {
        uint64_t old = timers;
        set_timer(READ(time) + MILLISECOND / 5);
        wait_for(&timers, old);
    }
    say_value("timer interrupts", timers);
    for (int i = 0; i < 5; i++) {
        uint64_t old = softwares;
        sbi(SBI_IPI, 0, 1, 0);
        wait_for(&softwares, old);
    }
    say_value("software interrupts", softwares);
}

static void try_exceptions(void)
{
    TRY("mscratch in S", "csrr a0, mscratch", 0);
    say_value("sstatus in the handler", sstatus_then);
    TRY("write of cycle", "csrw cycle, a0", 0);
    TRY("an instruction that isn't one", ".word 0xffffffff", 0);
    trap.came = 0;
    __asm__ volatile("ebreak");
    say_value("ebreak", trap.cause);
    say_word("ebreak's value", trap.value == trap.pc ? "its address" : trap.value == 0 ? "0" : "another");
    TRY("load from 0", "ld a0, 0(zero)", 0);
    TRY("store to 0", "sd zero, 0(zero)", 0);
    TRY("load of the firmware", "ld a0, 0(a0)", MEMORY);
    TRY("store to the firmware", "sd zero, 0(a0)", MEMORY);
#ifdef CLOSED
    TRY("load of the monitor", "ld a0, 0(a0)", CLOSED);
    TRY("store to the monitor", "sd zero, 0(a0)", CLOSED);
#endif
}

static void try_misaligned(void)
{
    static uint64_t words[2];
    uint64_t at = (uint64_t)words;
    words[0] = 0x8786858483828180;
    words[1] = 0x8f8e8d8c8b8a8988;
    TRY("misaligned lh", "lh a0, 7(a0)", at);
    TRY("misaligned lhu", "lhu a0, 7(a0)", at);
    TRY("misaligned lw", "lw a0, 5(a0)", at);
    TRY("misaligned lwu", "lwu a0, 5(a0)", at);
    TRY("misaligned ld", "ld a0, 1(a0)", at);
    TRY_WITH("misaligned sh", "sh a1, 7(a0)\n ld a0, 8(a0)", at, 0x5051525354555657);
    TRY_WITH("misaligned sw", "sw a1, 9(a0)\n ld a0, 8(a0)", at, 0x6061626364656667);
    TRY_WITH("misaligned sd", "sd a1, 3(a0)\n ld a0, 8(a0)", at, 0x7071727374757677);
}

static void try_csrs(void)
{
    uint64_t cycle = READ(cycle), instret = READ(instret);
    say_word("cycle", READ(cycle) > cycle ? "runs" : "stands still");
    say_word("instret", READ(instret) > instret ? "runs" : "stands still");
    WRITE(satp, 3ul << 60);
    say_value("satp after a mode that there isn't", READ(satp));
    say_value("sstatus", READ(sstatus));
    say_value("sie", READ(sie));
    say_value("sip", READ(sip));
    say_value("scounteren", READ(scounteren));
    WRITE(scounteren, 5);
    say_value("SBI version", version());
    say_value("scounteren after a call", READ(scounteren));
    WRITE(scounteren, UINT32_MAX);
    version();
    say_value("scounteren after a call, all set before", READ(scounteren));
    WRITE(scounteren, 7);
    say_value("SBI reset is there", sbi(SBI_BASE, 3, SBI_RESET, 0).value);
}

/* What the firmware uses itself when it hands a trap on must be the payload's own again. */
static void try_kept(void)
{
    CLEAR(sstatus, SSTATUS_SIE);
    uint64_t stvec = READ(stvec);
    WRITE(sscratch, 0x0123456789abcdef);
    WRITE(sepc, 0xffffffc012345678);
    WRITE(scause, INTERRUPT | 9);
    WRITE(stval, 0xfedcba9876543210);
    version();
    uint64_t sscratch = READ(sscratch), sepc = READ(sepc), scause = READ(scause), stval = READ(stval);
    say_value("sscratch after a call", sscratch);
    say_value("sepc after a call", sepc);
    say_value("scause after a call", scause);
    say_value("stval after a call", stval);
    say_word("stvec after a call", READ(stvec) == stvec ? "kept" : "changed");
    SET(sstatus, SSTATUS_SIE);
}

static void try_user(void)
{
    user_calls(4);
    say_value("ecalls from U", calls);
    say_value("sstatus in the handler", sstatus_then);
}

/* A hart may keep FS and yet have no such instructions. */
static int has_float(void)
{
    SET(sstatus, SSTATUS_FS);
    if ((READ(sstatus) & SSTATUS_FS) == 0) return 0;
    trap.came = 0;
    __asm__ volatile(".option push\n.option arch, +d\n fmv.d.x fs0, zero\n.option pop");
    return trap.came == 0;
}

static void try_float(void)
{
    if (!has_float()) {
        say_word("F", "none");
        return;
    }
    uint64_t fs0, fcsr, state;
    __asm__ volatile(".option push\n.option arch, +d\n fmv.d.x fs0, %0\n fscsr %1\n.option pop"
                     :
                     : "r"(0x400921fb54442d18), "r"(0x7ful));
    version();
    state = READ(sstatus) & SSTATUS_FS;
    __asm__ volatile(".option push\n.option arch, +d\n fmv.x.d %0, fs0\n frcsr %1\n.option pop"
                     : "=r"(fs0), "=r"(fcsr));
    say_value("fs0 after a call", fs0);
    say_value("fcsr after a call", fcsr);
    say_value("FS after a call", state);
    CLEAR(sstatus, SSTATUS_FS);
    version();
    say_value("FS off, after a call", READ(sstatus) & SSTATUS_FS);
    TRY("F with FS off", ".word 0xf2040553", 0); /* fmv.d.x fa0, s0 */
}

/* Calls that make the firmware look at the payload's memory with the payload's rights (MPRV). */
static void try_pointers(void)
{
    uint64_t mask = 1, old = softwares;
    TRY("an IPI by a high pointer", SEND_IPI, (uint64_t)&mask);
    wait_for(&softwares, old);
    TRY("an IPI by a pointer that isn't mapped", SEND_IPI, NOWHERE);
    TRY("an IPI by a pointer to the firmware", SEND_IPI, HIGH + MEMORY);
    TRY("an instruction of 16 bits that isn't one", ".balign 4\n .2byte 0x4002\n c.nop", 0);
    TRY("an instruction of 16 bits, all zero", ".balign 4\n .2byte 0\n c.nop", 0);
    say_word("it stood", trap.pc >= HIGH ? "high" : "low");
}

/* Runs at its address in the upper half, and so does all that it calls. */
static void high(void)
{
    uint64_t pc;
    __asm__ volatile("auipc %0, 0" : "=r"(pc));
    say_value("Sv39, the upper half of pc", pc >> 32);
    WRITE(stvec, vector);
    try_pointers();
    TRY("load of the firmware, mapped", "ld a0, 0(a0)", HIGH + MEMORY);
    TRY("load that isn't mapped", "ld a0, 0(a0)", NOWHERE);
#ifdef CLOSED
    TRY("load of the monitor, mapped", "ld a0, 0(a0)", HIGH + CLOSED);
    TRY("store to the monitor, mapped", "sd zero, 0(a0)", HIGH + CLOSED);
    TRY("an IPI by a pointer to the monitor", SEND_IPI, HIGH + CLOSED);
#endif
    try_kept();
    uint64_t old = timers;
    set_timer(READ(time) + MILLISECOND / 5);
    wait_for(&timers, old);
    say_word("timer interrupt", "came");
    say_value("fence on all harts", sbi(SBI_FENCE, 1, 1, 0).error);
}

static void try_high(void)
{
    static uint64_t root[512] __attribute__((aligned(4096)));
    for (uint64_t i = 0; i < 4; i++) root[i] = root[256 + i] = GIGAPAGE(i << 30, PAGE_R | PAGE_W | PAGE_X);
    WRITE(satp, SV39 | (uint64_t)root >> 12);
    __asm__ volatile("sfence.vma" : : : "memory");
    run_high(high);
    WRITE(stvec, vector);
}

/* Interrupts are off here: what is pending stays so. */
static void try_pending(void)
{
    CLEAR(sstatus, SSTATUS_SIE);
    set_timer(READ(time));
    while ((READ(sip) & MIP_STIP) == 0) continue;
    TRY("an IPI by a pointer that isn't mapped, STIP up", SEND_IPI, NOWHERE);
    say_value("STIP after it", READ(sip) & MIP_STIP);
    set_timer(NEVER);
    say_value("STIP with the timer off", READ(sip) & MIP_STIP);

    uint64_t end = READ(time) + 50 * MILLISECOND;
    set_timer(end);
    suspend();
    say_word("suspended until the timer", READ(time) >= end ? "yes" : "no");
    say_value("STIP then", READ(sip) & MIP_STIP);

    end = READ(time) + 2000 * MILLISECOND;
    set_timer(end);
    SET(sip, MIP_SSIP);
    suspend();
    say_word("suspended with SSIP up", READ(time) < end ? "woke at once" : "slept until the timer");
    CLEAR(sip, MIP_SSIP);
    set_timer(NEVER);
}

void payload(uint64_t hart)
{
    say_value("payload in S on hart", hart);
    WRITE(stvec, vector);
    try_interrupts();
    try_exceptions();
    try_misaligned();
    try_csrs();
    try_kept();
    try_user();
    try_float();
    try_high();
    try_pending();
    say_word("payload", "done");
    sbi(SBI_RESET, 0, 0, 0);
    for (;;) continue;
}
