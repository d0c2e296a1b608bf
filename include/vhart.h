/* vhart.h: the C interface of the virtual hart: twenty-four calls on images, files and logs that
 * the caller lends.
 *
 * An image is a run of 64-bit words, each little-endian, with nothing between them. The
 * capability image says what the hart has and is only read. The hart image is the hart's record.
 * The library keeps no state of its own.
 *
 * Every call comes back, whatever the numbers, the lengths and the bytes. It is done (refusal
 * 0), or it is refused: then no byte that was lent has changed, the answer is 0 and the effect is
 * 0. The lowest refusal number that applies is given; vhart_settings_read alone has another order.
 * docs/RULES.md says what each call does, and docs/GUIDE.md which call goes where in a trap
 * handler.
 *
 * The caller guarantees:
 *   - caps, hart, file, wait, fragment and out point to as many bytes as their lengths say, and
 *     aren't null, not even with a length of 0;
 *   - totals points to a vhart_totals, aligned as the compiler aligns one;
 *   - those that a call takes don't overlap;
 *   - while the call runs, nobody else reads or writes totals or out, or a hart image, file or wait
 *     passed as non-const, and nobody writes caps or fragment, or a hart image, file or wait passed
 *     as const.
 * No other alignment is needed, except of the two images for the riscv64 archive `aligned`
 * (docs/GUIDE.md). In that archive too the two calls on a settings file and vhart_replay take all
 * that they are lent at any address, and vhart_replay_end takes wait at any. Calls on different
 * hart images may run at the same time and may share their capabilities and a fragment, but not
 * their totals, waiting bytes or out.
 *
 * An image is legal if each of its words is, and a comment beside each word says when that is:
 * `any` is always legal. `With S` means that misa has the letter S, and likewise C, F, U and V.
 * `With Sstc` means that the flags have Sstc, and likewise the others. A word is within a mask if
 * it has no bit that the mask lacks.
 */
#ifndef VHART_H
#define VHART_H

#include <stddef.h>
#include <stdint.h>

/* The version of the library that this header belongs to: major * 10000 + minor * 100 + patch. */
#define VHART_VERSION 1900
#define VHART_VERSION_TEXT "0.19.0"

#ifdef __cplusplus
extern "C" {
#endif

/* The size of each image, and of a settings file. Any other length is refused. */
#define VHART_CAPS_BYTES 72
#define VHART_HART_BYTES 480
#define VHART_SETTINGS_BYTES 78

/* Reads and sets a word of an image by its number: VHART_CAPS_.. or VHART_HART_.. below. The word
 * is little-endian on any machine, and the image may stand at any address. */
static inline uint64_t vhart_get(const uint8_t *image, size_t word)
{
    uint64_t value = 0;
    for (size_t i = 8; i > 0; i--) value = value << 8 | image[8 * word + i - 1];
    return value;
}

static inline void vhart_put(uint8_t *image, size_t word, uint64_t value)
{
    for (size_t i = 0; i < 8; i++) image[8 * word + i] = value >> 8 * i & 0xFF;
}

/* ---- the capability image */

/* Its words, and when each is legal. */
enum vhart_caps_word {
    VHART_CAPS_MISA,       /* bits 63:62 are 2 (RV64); has U, but neither H (bit 7) nor N (13) */
    VHART_CAPS_INTERRUPTS, /* within 0x2AAA; with S it has all of 0x222, without S none of 0x2222 */
    VHART_CAPS_HIGHEST,    /* any: the highest address that a write can put into mepc and sepc */
    VHART_CAPS_FLAGS,      /* VHART_FLAG_.. alone; Zfinx not with F; Sstc and Svpbmt only with S */
    VHART_CAPS_MHARTID,    /* any */
    VHART_CAPS_MVENDORID,  /* below 2^32 */
    VHART_CAPS_MARCHID,    /* any */
    VHART_CAPS_MIMPID,     /* any */
    VHART_CAPS_MCONFIGPTR, /* any */
    VHART_CAPS_WORDS       /* how many there are */
};

/* misa: the width, which is always 64 bits, and letters of extensions. */
#define VHART_MISA_RV64 (UINT64_C(2) << 62)
#define VHART_MISA_A (UINT64_C(1) << 0)
#define VHART_MISA_B (UINT64_C(1) << 1)
#define VHART_MISA_C (UINT64_C(1) << 2)
#define VHART_MISA_D (UINT64_C(1) << 3)
#define VHART_MISA_F (UINT64_C(1) << 5)
#define VHART_MISA_I (UINT64_C(1) << 8)
#define VHART_MISA_M (UINT64_C(1) << 12)
#define VHART_MISA_Q (UINT64_C(1) << 16)
#define VHART_MISA_S (UINT64_C(1) << 18)
#define VHART_MISA_U (UINT64_C(1) << 20)
#define VHART_MISA_V (UINT64_C(1) << 21)
#define VHART_MISA_X (UINT64_C(1) << 23)

/* The flags: extensions that misa has no letter for. */
enum vhart_flag {
    VHART_FLAG_ZFINX = 0x01,
    VHART_FLAG_SSTC = 0x02,
    VHART_FLAG_ZICBOM = 0x04,
    VHART_FLAG_ZICBOZ = 0x08,
    VHART_FLAG_SVPBMT = 0x10
};

/* The bits of interrupts, and of mip and mie: bit n is for interrupt n. */
#define VHART_MIP_SSIP (UINT64_C(1) << 1)
#define VHART_MIP_MSIP (UINT64_C(1) << 3)
#define VHART_MIP_STIP (UINT64_C(1) << 5)
#define VHART_MIP_MTIP (UINT64_C(1) << 7)
#define VHART_MIP_SEIP (UINT64_C(1) << 9)
#define VHART_MIP_MEIP (UINT64_C(1) << 11)
#define VHART_MIP_LCOFIP (UINT64_C(1) << 13)

/* ---- the hart image */

/* Its words, and when each is legal. An address is aligned if bit 0 is 0, and without C bit 1
 * too. */
enum vhart_hart_word {
    VHART_HART_X0,            /* 0. General register n is VHART_HART_X0 + n, to 31: any */
    VHART_HART_PC = 32,       /* aligned; it may be above highest */
    VHART_HART_MODE,          /* VHART_MODE_U or VHART_MODE_M, with S also VHART_MODE_S */
    VHART_HART_WAITING,       /* 1 while the hart waits in wfi, else 0; the host sets it */
    VHART_HART_MSTATUS,       /* VHART_MSTATUS_.., each as said there, and no other bit */
    VHART_HART_MIE,           /* within interrupts and 0xAAA */
    VHART_HART_MIP,           /* within interrupts. The host sets and clears MSIP, MTIP and MEIP */
    VHART_HART_MIDELEG,       /* with S 0x222, or with interrupt 13 also 0x2222; without S 0 */
    VHART_HART_MEDELEG,       /* with S within 0xB3FF; without S 0 */
    VHART_HART_MTVEC,         /* bits 1:0 are 0 or 1 */
    VHART_HART_MCOUNTEREN,    /* within 7 */
    VHART_HART_MCOUNTINHIBIT, /* within 5 */
    VHART_HART_MENVCFG,       /* VHART_MENVCFG_.., each as said there, and no other bit */
    VHART_HART_MSCRATCH,      /* any */
    VHART_HART_MEPC,          /* aligned; it may be above highest */
    VHART_HART_MCAUSE,        /* any */
    VHART_HART_MTVAL,         /* any */
    VHART_HART_MCYCLE,        /* any: it doesn't count by itself */
    VHART_HART_MINSTRET,      /* any: it doesn't count by itself */
    VHART_HART_TSELECT,       /* any: a read gives the complement */
    VHART_HART_STVEC,         /* bits 1:0 are 0 or 1; 0 without S */
    VHART_HART_SCOUNTEREN,    /* within 7; 0 without S */
    VHART_HART_SENVCFG,       /* as menvcfg, but without PBMTE and STCE; 0 without S */
    VHART_HART_SSCRATCH,      /* any with S, 0 without */
    VHART_HART_SEPC,          /* aligned; it may be above highest; 0 without S */
    VHART_HART_SCAUSE,        /* any with S, 0 without */
    VHART_HART_STVAL,         /* any with S, 0 without */
    VHART_HART_SATP,          /* bits 63:60 are 0 or 8; 0 without S */
    VHART_HART_STIMECMP,      /* any with Sstc, 0 without */
    VHART_HART_WORDS          /* how many there are */
};

/* The privilege modes. */
enum vhart_mode {
    VHART_MODE_U = 0,
    VHART_MODE_S = 1,
    VHART_MODE_M = 3
};

/* The fields of mstatus, and what each must hold to be legal. */
#define VHART_MSTATUS_SIE (UINT64_C(1) << 1) /* 0 without S */
#define VHART_MSTATUS_MIE (UINT64_C(1) << 3)
#define VHART_MSTATUS_SPIE (UINT64_C(1) << 5) /* 0 without S */
#define VHART_MSTATUS_MPIE (UINT64_C(1) << 7)
#define VHART_MSTATUS_SPP (UINT64_C(1) << 8) /* 0 without S */
#define VHART_MSTATUS_VS (UINT64_C(3) << 9) /* 0 with neither V nor S */
#define VHART_MSTATUS_MPP (UINT64_C(3) << 11) /* a mode that the hart has */
#define VHART_MSTATUS_MPP_SHIFT 11
#define VHART_MSTATUS_FS (UINT64_C(3) << 13) /* 0 with neither F nor S, and with Zfinx */
#define VHART_MSTATUS_MPRV (UINT64_C(1) << 17)
#define VHART_MSTATUS_SUM (UINT64_C(1) << 18) /* 0 without S */
#define VHART_MSTATUS_MXR (UINT64_C(1) << 19) /* 0 without S */
#define VHART_MSTATUS_TVM (UINT64_C(1) << 20) /* 0 without S */
#define VHART_MSTATUS_TW (UINT64_C(1) << 21)
#define VHART_MSTATUS_TSR (UINT64_C(1) << 22) /* 0 without S */
#define VHART_MSTATUS_UXL (UINT64_C(3) << 32) /* always 2 */
#define VHART_MSTATUS_SXL (UINT64_C(3) << 34) /* 2 with S, 0 without */
#define VHART_MSTATUS_SD (UINT64_C(1) << 63)  /* 1 exactly if FS or VS is 3 */

/* The fields of menvcfg, and what each must hold to be legal. */
#define VHART_MENVCFG_FIOM (UINT64_C(1) << 0)
#define VHART_MENVCFG_CBIE (UINT64_C(3) << 4)   /* 0 without Zicbom, and never 2 */
#define VHART_MENVCFG_CBCFE (UINT64_C(1) << 6)  /* 0 without Zicbom */
#define VHART_MENVCFG_CBZE (UINT64_C(1) << 7)   /* 0 without Zicboz */
#define VHART_MENVCFG_PBMTE (UINT64_C(1) << 62) /* 0 without Svpbmt */
#define VHART_MENVCFG_STCE (UINT64_C(1) << 63)  /* 0 without Sstc */

/* ---- the CSRs */

/* Their addresses. */
enum vhart_csr {
    VHART_CSR_SEED = 0x015,
    VHART_CSR_SSTATUS = 0x100,
    VHART_CSR_SIE = 0x104,
    VHART_CSR_STVEC = 0x105,
    VHART_CSR_SCOUNTEREN = 0x106,
    VHART_CSR_SENVCFG = 0x10A,
    VHART_CSR_SSCRATCH = 0x140,
    VHART_CSR_SEPC = 0x141,
    VHART_CSR_SCAUSE = 0x142,
    VHART_CSR_STVAL = 0x143,
    VHART_CSR_SIP = 0x144,
    VHART_CSR_STIMECMP = 0x14D,
    VHART_CSR_SATP = 0x180,
    VHART_CSR_MSTATUS = 0x300,
    VHART_CSR_MISA = 0x301,
    VHART_CSR_MEDELEG = 0x302,
    VHART_CSR_MIDELEG = 0x303,
    VHART_CSR_MIE = 0x304,
    VHART_CSR_MTVEC = 0x305,
    VHART_CSR_MCOUNTEREN = 0x306,
    VHART_CSR_MENVCFG = 0x30A,
    VHART_CSR_MCOUNTINHIBIT = 0x320,
    VHART_CSR_MHPMEVENT3 = 0x323, /* and on to mhpmevent31, 0x33F */
    VHART_CSR_MSCRATCH = 0x340,
    VHART_CSR_MEPC = 0x341,
    VHART_CSR_MCAUSE = 0x342,
    VHART_CSR_MTVAL = 0x343,
    VHART_CSR_MIP = 0x344,
    VHART_CSR_SCONTEXT = 0x5A8,
    VHART_CSR_TSELECT = 0x7A0,
    VHART_CSR_MCYCLE = 0xB00,
    VHART_CSR_MINSTRET = 0xB02,
    VHART_CSR_MHPMCOUNTER3 = 0xB03, /* and on to mhpmcounter31, 0xB1F */
    VHART_CSR_CYCLE = 0xC00,
    VHART_CSR_TIME = 0xC01,
    VHART_CSR_INSTRET = 0xC02,
    VHART_CSR_MVENDORID = 0xF11,
    VHART_CSR_MARCHID = 0xF12,
    VHART_CSR_MIMPID = 0xF13,
    VHART_CSR_MHARTID = 0xF14,
    VHART_CSR_MCONFIGPTR = 0xF15
};

/* ---- what a call gives */

/* Why a call was refused. A later library may have more numbers. */
enum vhart_refusal {
    VHART_DONE = 0,             /* the call was done */
    VHART_BAD_CAPS = 1,         /* capabilities not 72 bytes or not legal: see vhart_check_caps */
    VHART_BAD_HART = 2,         /* record not legal: see vhart_check_hart; or bad waiting bytes */
    VHART_NO_SUCH_CSR = 3,      /* no CSR has this address */
    VHART_CSR_ABSENT = 4,       /* this hart lacks the CSR: it needs S, or Sstc (stimecmp) */
    VHART_BAD_OPERAND = 5,      /* general register number or immediate above 31 */
    VHART_NOT_MACHINE = 6,      /* CSR instruction, mret or sret in another mode than M */
    VHART_NO_SUPERVISOR = 7,    /* sret without S */
    VHART_BAD_INTERRUPT = 8,    /* no interrupt of this hart */
    VHART_NOT_EXCEPTION = 9,    /* firmware trap whose mcause is an interrupt's (bit 63) */
    VHART_BAD_TRAP = 10,        /* trap record otherwise bad: see vhart_trap */
    VHART_BAD_START = 11,       /* start pc not aligned */
    VHART_BAD_LENGTH = 12,      /* settings file, or the buffer for one, not 78 bytes */
    VHART_BAD_MARK = 13,        /* settings file without VHR at its start, or with byte 5 not 0 */
    VHART_UNKNOWN_VERSION = 14, /* settings file of another version than 1 */
    VHART_BAD_LINE = 15,        /* line neither 0 nor 1 */
    VHART_TOTAL_FULL = 16,      /* a total would pass 2^32 - 1: see vhart_tally */
    VHART_BAD_ENTRY = 17,       /* entry of a call log: no known kind, or an unused word not 0 */
    VHART_ENTRY_WAITS = 18,     /* call log that ends within an entry */
    VHART_SHORT_BUFFER = 23     /* out too short for the entries completed: see vhart_replay */
};

/* What the host is asked to do to bit 9 (SEIP) of the physical mip, before the hart runs on. */
enum vhart_effect {
    VHART_EFFECT_NONE = 0,
    VHART_EFFECT_SET_SEIP = 1,
    VHART_EFFECT_CLEAR_SEIP = 2
};

/* What a call gives. A refusal has answer 0 and effect 0; a done call that reads nothing has
 * answer 0, but for vhart_replay, which answers a count. */
typedef struct {
    uint64_t refusal; /* enum vhart_refusal */
    uint64_t answer;
    uint64_t effect; /* enum vhart_effect */
} vhart_outcome;

/* ---- the calls on a record */

/* Writes a fresh record: mode M, this pc, mstatus legalized from 0, mideleg 0x222 with S, every
 * other word 0.
 * Refuses 1, 2 (for the length alone: what hart held isn't looked at), 11. */
vhart_outcome vhart_fresh(const uint8_t *caps, size_t caps_len, uint8_t *hart, size_t hart_len, uint64_t pc);

/* Answers what the CSR at this address reads, in any mode; time (C01) and seed (015) read the
 * arguments of these names. line is 1 while the interrupt controller raises the supervisor external
 * interrupt, and else 0: a monitor finds it in bit 9 of the board's mip (docs/GUIDE.md). With S,
 * mip (344) and sip (144) read SEIP as 1 if stored SEIP or line is 1; no other CSR shows line, and
 * without S none does.
 * Refuses 1, 2, 3, 4, 15. */
vhart_outcome vhart_read(const uint8_t *caps, size_t caps_len, const uint8_t *hart, size_t hart_len, uint64_t address,
                         uint64_t time, uint64_t seed, uint64_t line);

/* Writes a CSR by its rule, in any mode: what isn't legal is made legal or ignored. Effect if
 * stored SEIP changes.
 * Refuses 1, 2, 3, 4. */
vhart_outcome vhart_write(const uint8_t *caps, size_t caps_len, uint8_t *hart, size_t hart_len, uint64_t address,
                          uint64_t value);

/* The CSR instructions, in mode M: read the CSR, write it, then set rd to the value read. That
 * value is also the answer, even if rd is x0. The effect is the write's. pc isn't moved. time, seed
 * and line are as for vhart_read. The old value below is what the CSR reads with line 0: so setting
 * or clearing bits never stores line. */

/* Writes what rs1 holds.
 * Refuses 1, 2, 3, 4, 5, 6, 15. */
vhart_outcome vhart_csrrw(const uint8_t *caps, size_t caps_len, uint8_t *hart, size_t hart_len, uint64_t address,
                          uint64_t rd, uint64_t rs1, uint64_t time, uint64_t seed, uint64_t line);

/* Writes the old value with rs1's bits set; writes nothing if rs1 is x0.
 * Refuses 1, 2, 3, 4, 5, 6, 15. */
vhart_outcome vhart_csrrs(const uint8_t *caps, size_t caps_len, uint8_t *hart, size_t hart_len, uint64_t address,
                          uint64_t rd, uint64_t rs1, uint64_t time, uint64_t seed, uint64_t line);

/* Writes the old value with rs1's bits cleared; writes nothing if rs1 is x0.
 * Refuses 1, 2, 3, 4, 5, 6, 15. */
vhart_outcome vhart_csrrc(const uint8_t *caps, size_t caps_len, uint8_t *hart, size_t hart_len, uint64_t address,
                          uint64_t rd, uint64_t rs1, uint64_t time, uint64_t seed, uint64_t line);

/* Writes the immediate.
 * Refuses 1, 2, 3, 4, 5, 6, 15. */
vhart_outcome vhart_csrrwi(const uint8_t *caps, size_t caps_len, uint8_t *hart, size_t hart_len, uint64_t address,
                           uint64_t rd, uint64_t imm, uint64_t time, uint64_t seed, uint64_t line);

/* Writes the old value with the immediate's bits set; writes nothing if the immediate is 0.
 * Refuses 1, 2, 3, 4, 5, 6, 15. */
vhart_outcome vhart_csrrsi(const uint8_t *caps, size_t caps_len, uint8_t *hart, size_t hart_len, uint64_t address,
                           uint64_t rd, uint64_t imm, uint64_t time, uint64_t seed, uint64_t line);

/* Writes the old value with the immediate's bits cleared; writes nothing if the immediate is 0.
 * Refuses 1, 2, 3, 4, 5, 6, 15. */
vhart_outcome vhart_csrrci(const uint8_t *caps, size_t caps_len, uint8_t *hart, size_t hart_len, uint64_t address,
                           uint64_t rd, uint64_t imm, uint64_t time, uint64_t seed, uint64_t line);

/* Answers the interrupt to inject now (3, 7 or 11), or 0 for none: in M with MIE 0 there is none.
 * While the waiting word is 1, MIE doesn't matter: so clear the word before you ask. The answer
 * leaves out what mideleg delegates, and so every interrupt of supervisor level. A sleeping hart
 * wakes if mie shares a bit with what mip reads, line and all, whatever this answers.
 * Refuses 1, 2. */
vhart_outcome vhart_pending(const uint8_t *caps, size_t caps_len, const uint8_t *hart, size_t hart_len);

/* Takes this interrupt into mode M: pc becomes mtvec's base, plus 4 times the number in vectored
 * mode. The interrupt needn't be pending.
 * Refuses 1, 2, 8. */
vhart_outcome vhart_inject(const uint8_t *caps, size_t caps_len, uint8_t *hart, size_t hart_len, uint64_t number);

/* Takes an exception into mode M: pc becomes mtvec's base. SSIP and STIP come from the trap's
 * mip, and mstatus is the trap's too if the mode wasn't M.
 * Refuses 1, 2, 9, 10. 10 means that mepc isn't aligned, that mip has a bit outside interrupts,
 * or, if the mode isn't M, that mstatus isn't legal or its MPP isn't the mode. */
vhart_outcome vhart_trap(const uint8_t *caps, size_t caps_len, uint8_t *hart, size_t hart_len, uint64_t mcause,
                         uint64_t mtval, uint64_t mepc, uint64_t mip, uint64_t mstatus);

/* Returns from a trap of mode M: the mode becomes what MPP holds, pc becomes mepc.
 * Refuses 1, 2, 6. */
vhart_outcome vhart_mret(const uint8_t *caps, size_t caps_len, uint8_t *hart, size_t hart_len);

/* Returns from a trap of mode S: the mode becomes what SPP holds, pc becomes sepc.
 * Refuses 1, 2, 6, 7. */
vhart_outcome vhart_sret(const uint8_t *caps, size_t caps_len, uint8_t *hart, size_t hart_len);

/* ---- the calls that say what is wrong with an image, and change nothing */

/* What they give. All three are 0 exactly if the images are legal. */
typedef struct {
    uint64_t refusal; /* VHART_BAD_CAPS, or else VHART_BAD_HART; vhart_fresh may still accept */
    uint64_t word;    /* the lowest word that isn't legal; VHART_.._WORDS for a wrong length */
    uint64_t value;   /* what this word holds; 0 for a wrong length */
} vhart_fault;

/* Looks at the capabilities alone.
 * Refuses 1. */
vhart_fault vhart_check_caps(const uint8_t *caps, size_t caps_len);

/* Looks at the capabilities, and if these are legal at the record.
 * Refuses 1, 2. */
vhart_fault vhart_check_hart(const uint8_t *caps, size_t caps_len, const uint8_t *hart, size_t hart_len);

/* ---- the calls on the settings file of a board
 *
 * It is a capability image in a file, so that a monitor can learn from it what its board has:
 *   bytes 0 to 2   the mark: the letters V, H, R
 *   bytes 3, 4     the version, little-endian: 1
 *   byte 5         0
 *   bytes 6 to 77  the capability image
 */

/* What reading gives. */
typedef struct {
    uint64_t refusal;                 /* enum vhart_refusal */
    uint64_t words[VHART_CAPS_WORDS]; /* of the capability image, in its order; all 0 if refused */
} vhart_settings;

/* Reads a settings file. It is accepted exactly if each of its bytes is as said above, and its
 * capability image is legal.
 * Refuses 12 (fewer than 6 bytes), 13, 14, 12 (not 78 bytes), 1. They are tested in this order,
 * which isn't that of the numbers: so a longer file of another version gives 14. */
vhart_settings vhart_settings_read(const uint8_t *file, size_t file_len);

/* Writes a settings file of version 1 with these capabilities: every byte of the buffer, whatever
 * it held.
 * Refuses 1, 12. */
vhart_outcome vhart_settings_write(const uint8_t *caps, size_t caps_len, uint8_t *file, size_t file_len);

/* ---- the plain engine: a read and a write once more, for those who check the rules
 *
 * Both give what vhart_read and vhart_write give, and leave the same bytes, for all numbers,
 * lengths and bytes: that is proved. But they find it in another way, by one table of rows
 * (docs/REGISTERS.md): the addresses, the bits that a write keeps, those that it forces, when the
 * row applies, and by name what more there is to its rule. People read this table beside the
 * manual, and an engineer can hold the calls above to it while a monitor runs: make both calls,
 * each on a copy of the record, and compare. They take more time than the others, and more stack,
 * on which the table is built (docs/BENCH.md): a monitor serves its firmware by the calls above.
 */

/* As vhart_read.
 * Refuses 1, 2, 3, 4, 15. */
vhart_outcome vhart_plain_read(const uint8_t *caps, size_t caps_len, const uint8_t *hart, size_t hart_len,
                               uint64_t address, uint64_t time, uint64_t seed, uint64_t line);

/* As vhart_write.
 * Refuses 1, 2, 3, 4. */
vhart_outcome vhart_plain_write(const uint8_t *caps, size_t caps_len, uint8_t *hart, size_t hart_len, uint64_t address,
                                uint64_t value);

/* ---- the call that says which bits of a value a write loses, and why, and changes nothing */

/* Why a bit was lost. Of those that hold for it the lowest is given. */
enum vhart_reason {
    VHART_REASON_READ_ONLY = 1,        /* a write to this CSR stores nothing, whatever the value */
    VHART_REASON_NEVER_COPIED = 2,     /* no hart takes this bit of this CSR from a value */
    VHART_REASON_OTHER_EXTENSIONS = 3, /* with other extensions or interrupts it would be stored */
    VHART_REASON_RESERVED = 4,         /* MPP or CBIE with 2, or mtvec's or stvec's mode above 1 */
    VHART_REASON_FORCED = 5,           /* UXL, SXL or SD, or bit 1, 5 or 9 of mideleg */
    VHART_REASON_IGNORED = 6,          /* the whole write: mepc, sepc above highest, satp's mode */
    VHART_REASON_DRIVEN = 7            /* STIP of mip, while STCE is 1 */
};

/* What it gives. A refusal has 0 in all else. */
typedef struct {
    uint64_t refusal;    /* enum vhart_refusal */
    uint64_t count;      /* how many bits are lost */
    uint8_t bits[64];    /* which they are, lowest first, in entries 0 to count - 1; 0 behind */
    uint8_t reasons[64]; /* enum vhart_reason: why, in the same entries; 0 behind */
} vhart_listing;

/* Compares this value with the word that vhart_write of it would leave, in any mode; where a write
 * stores nothing, with what the CSR reads: time (C01) and seed (015) read the arguments of these
 * names. A bit in which the two differ is lost. Of sstatus only the bits that it reads are
 * compared, and of sie and sip those of mideleg & 0x222.
 * Refuses 1, 2, 3, 4. */
vhart_listing vhart_explain(const uint8_t *caps, size_t caps_len, const uint8_t *hart, size_t hart_len,
                            uint64_t address, uint64_t value, uint64_t time, uint64_t seed);

/* ---- the call that counts lost bits over many writes */

/* The totals of a month, or of any other time. Start each month from 0 in all of them, and hand the
 * same ones to each call of that month. */
typedef struct {
    uint32_t lost[7];  /* how many bits were lost for each reason: for reason r in lost[r - 1] */
    uint32_t writes;   /* how many writes were counted */
    uint32_t lossless; /* how many of these lost no bit */
} vhart_totals;

/* Explains the write as vhart_explain does, and adds it to the totals: each lost bit adds 1 to the
 * total of its reason, writes grows by 1, and lossless by 1 if no bit is lost. So the sum of lost
 * is the number of all lost bits; it may need 64 bits. The write isn't made, and answer and effect
 * are always 0: make this call before vhart_write of the same value, while the record is as the
 * write will find it. A write that is refused isn't counted, since this call refuses it too.
 * Refuses 1, 2, 3, 4, 16. 16 means that one of the nine totals would pass 2^32 - 1, and is tested
 * last. A full total to which the write adds nothing is no reason to refuse. No refusal changes any
 * of the totals: after 16 store them, set them to 0, and call again.
 *
 *     vhart_totals month = {{0}, 0, 0};
 *     vhart_fresh(caps, sizeof caps, hart, sizeof hart, 0x80000000);
 *     vhart_tally(caps, sizeof caps, hart, sizeof hart, VHART_CSR_MIDELEG, 0, 0, 0, &month);
 *     vhart_tally(caps, sizeof caps, hart, sizeof hart, VHART_CSR_MSCRATCH, 5, 0, 0, &month);
 *
 * With S, mideleg keeps its bits 1, 5 and 9, and mscratch takes any value. So now
 * month.lost[VHART_REASON_FORCED - 1] is 3, month.writes 2 and month.lossless 1, and the rest 0. */
vhart_outcome vhart_tally(const uint8_t *caps, size_t caps_len, const uint8_t *hart, size_t hart_len, uint64_t address,
                          uint64_t value, uint64_t time, uint64_t seed, vhart_totals *totals);

/* ---- the calls that replay a call log, as it arrives
 *
 * A call log is a run of entries of 24 bytes, with nothing between them, and each entry is a call
 * on the record. It is three words, each little-endian:
 *   kind                  word 1                word 2
 *   0  vhart_read         the address           0
 *   1  vhart_write        the address           the value
 *   2  vhart_inject       the number            0
 *   3  vhart_mret         0                     0
 *   4  vhart_sret         0                     0
 * time, seed and line are 0. An entry of another kind, or with another number where a 0 stands
 * here, is refused with 17, before all else. Every other entry has the refusals of its call.
 *
 * A log comes in fragments of any length, cut anywhere. What came of an entry that isn't whole yet
 * waits in 24 bytes, which the caller keeps beside the record from one fragment to the next:
 *   byte 0        how many bytes wait: 0 to 23
 *   bytes 1 on    these bytes; behind them 0
 * Set all 24 to 0 before a log begins. What the entries give, the record and the waiting bytes
 * depend on the log alone, not on where it was cut.
 */

/* The bytes of an entry, of what is put out for one, and of the waiting bytes. The length of the
 * waiting bytes is always this one; that of a fragment and of out needn't be a multiple of 24. */
#define VHART_ENTRY_BYTES 24
#define VHART_RESULT_BYTES 24
#define VHART_WAIT_BYTES 24

/* What an entry is. */
enum vhart_kind {
    VHART_KIND_READ = 0,
    VHART_KIND_WRITE = 1,
    VHART_KIND_INJECT = 2,
    VHART_KIND_MRET = 3,
    VHART_KIND_SRET = 4
};

/* Replays a fragment: the waiting bytes and then the fragment's. Each entry that these complete is
 * made on the record, in order, and puts three words of 8 bytes into out, each little-endian: what
 * it answers, its effect (enum vhart_effect) and its refusal (enum vhart_refusal). Those of entry i
 * of this call, the first of which is 0, stand from byte 24 * i on. A refused entry leaves the
 * record, puts 0, 0 and its number, and the next one follows: so look at each of these numbers. The
 * bytes of out behind the last entry's stay as they were. The answer is how many entries were
 * completed, and the effect 0: those of the entries are in out. What is left of the fragment waits,
 * and what stood behind the waiting bytes isn't looked at.
 * Refuses 1, 2 (also for waiting bytes whose length isn't 24, or whose byte 0 is above 23), 23. 23
 * means that out has fewer than 24 bytes for each entry that this fragment completes, which are
 * (wait[0] + fragment_len) / 24: 24 * (fragment_len / 24 + 1) bytes are always enough. A refused
 * fragment changes nothing, neither the record nor the waiting bytes nor out: after 23 hand it in
 * again with a longer out, or a shorter part of it.
 *
 *     uint8_t log[2 * VHART_ENTRY_BYTES], out[2 * VHART_RESULT_BYTES];
 *     uint8_t wait[VHART_WAIT_BYTES] = {0};
 *     vhart_put(log, 0, VHART_KIND_WRITE);
 *     vhart_put(log, 1, VHART_CSR_MSCRATCH);
 *     vhart_put(log, 2, 5);
 *     vhart_put(log, 3, VHART_KIND_READ);
 *     vhart_put(log, 4, VHART_CSR_MSCRATCH);
 *     vhart_put(log, 5, 0);
 *     vhart_fresh(caps, sizeof caps, hart, sizeof hart, 0x80000000);
 *     vhart_replay(caps, sizeof caps, hart, sizeof hart, wait, sizeof wait, log, 30,
 *                  out, sizeof out);
 *     vhart_replay(caps, sizeof caps, hart, sizeof hart, wait, sizeof wait, log + 30, 18,
 *                  out, sizeof out);
 *
 * Both answer 1. After the first, mscratch is 5 and wait[0] is 6; after the second, wait is all 0,
 * and out begins with what the read gave: vhart_get(out, 0) is 5, vhart_get(out, 1)
 * VHART_EFFECT_NONE and vhart_get(out, 2) VHART_DONE. */
vhart_outcome vhart_replay(const uint8_t *caps, size_t caps_len, uint8_t *hart, size_t hart_len, uint8_t *wait,
                           size_t wait_len, const uint8_t *fragment, size_t fragment_len, uint8_t *out, size_t out_len);

/* Says that the log has ended: done exactly if no byte waits. It changes nothing: after 18 the rest
 * of the entry can still come.
 * Refuses 1, 2 (as vhart_replay), 18. */
vhart_outcome vhart_replay_end(const uint8_t *caps, size_t caps_len, const uint8_t *hart, size_t hart_len,
                               const uint8_t *wait, size_t wait_len);

#ifdef __cplusplus
}
#endif

#endif
