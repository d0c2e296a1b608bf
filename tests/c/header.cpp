// header.cpp: the header from C++. Its sizes, bits and names agree, its accessors work, each entry
// has the type that the list says, and it links.
#include "accessors.h"
#include "entries.h"

static_assert(VHART_CAPS_WORDS * 8 == VHART_CAPS_BYTES, "nine words");
static_assert(VHART_HART_WORDS * 8 == VHART_HART_BYTES, "sixty words");
static_assert(VHART_HART_STIMECMP == 59, "the last word's place");
static_assert(VHART_REASON_DRIVEN == 7, "the last reason's number");
static_assert(VHART_TOTAL_FULL == 16, "the number of the last refusal before those of call logs");
static_assert(VHART_BAD_ENTRY == 17 && VHART_ENTRY_WAITS == 18 && VHART_SHORT_BUFFER == 23, "those of call logs");
static_assert(VHART_KIND_READ == 0 && VHART_KIND_WRITE == 1 && VHART_KIND_INJECT == 2, "the first kinds' numbers");
static_assert(VHART_KIND_MRET == 3 && VHART_KIND_SRET == 4, "the last kinds' numbers");
static_assert(VHART_ENTRY_BYTES == 24 && VHART_RESULT_BYTES == 24, "three words, with nothing between them");
static_assert(VHART_WAIT_BYTES == 1 + (VHART_ENTRY_BYTES - 1), "a count, and all of an entry but a byte");
static_assert(sizeof(vhart_outcome) == 24, "three words, with nothing between them");
static_assert(sizeof(vhart_fault) == 24, "three words, with nothing between them");
static_assert(sizeof(vhart_settings) == 8 + VHART_CAPS_BYTES, "ten words, with nothing between them");
static_assert(sizeof(vhart_listing) == 16 + 64 + 64, "two words and two lists, with nothing between them");
static_assert(sizeof(vhart_totals) == 36, "nine totals of 32 bits, with nothing between them");
static_assert(offsetof(vhart_totals, writes) == 28 && offsetof(vhart_totals, lossless) == 32, "behind the reasons");
static_assert(VHART_SETTINGS_BYTES == 6 + VHART_CAPS_BYTES, "mark, version, a byte 0, the image");

// The masks of docs/RULES.md, made of the header's bits.
constexpr uint64_t of_s = VHART_MIP_SSIP | VHART_MIP_STIP | VHART_MIP_SEIP;
constexpr uint64_t of_m = VHART_MIP_MSIP | VHART_MIP_MTIP | VHART_MIP_MEIP;
static_assert(of_s == 0x222 && of_m == 0x888 && (of_s | of_m | VHART_MIP_LCOFIP) == 0x2AAA, "the interrupts");

// The bit of an interrupt: for which mode, and software (0), the timer (1) or external (2).
constexpr uint64_t interrupt(int mode, int kind) { return uint64_t{1} << (mode + 4 * kind); }
static_assert(VHART_MIP_SSIP == interrupt(VHART_MODE_S, 0) && VHART_MIP_MSIP == interrupt(VHART_MODE_M, 0), "software");
static_assert(VHART_MIP_STIP == interrupt(VHART_MODE_S, 1) && VHART_MIP_MTIP == interrupt(VHART_MODE_M, 1), "timer");
static_assert(VHART_MIP_SEIP == interrupt(VHART_MODE_S, 2) && VHART_MIP_MEIP == interrupt(VHART_MODE_M, 2), "external");

static_assert((VHART_MISA_RV64 | VHART_MISA_U) == 0x8000000000100000, "what misa must have");
static_assert(VHART_MSTATUS_MPP == uint64_t{3} << VHART_MSTATUS_MPP_SHIFT, "MPP and its place");

// The bit of a letter in misa.
constexpr uint64_t letter(char capital) { return uint64_t{1} << (capital - 'A'); }
static_assert(VHART_MISA_A == letter('A') && VHART_MISA_B == letter('B') && VHART_MISA_C == letter('C'), "A to C");
static_assert(VHART_MISA_D == letter('D') && VHART_MISA_F == letter('F') && VHART_MISA_I == letter('I'), "D to I");
static_assert(VHART_MISA_M == letter('M') && VHART_MISA_Q == letter('Q') && VHART_MISA_S == letter('S'), "M to S");
static_assert(VHART_MISA_U == letter('U') && VHART_MISA_V == letter('V') && VHART_MISA_X == letter('X'), "U to X");

using Hart_CHANGES = uint8_t *;
using Hart_READS = const uint8_t *;

// The type of a call that takes so many numbers behind these parameters.
template <int count, typename... Parameters> struct Taking : Taking<count - 1, Parameters..., uint64_t> {};
template <typename... Parameters> struct Taking<0, Parameters...> {
    using Entry = vhart_outcome (*)(Parameters...);
};

#define AS_TYPED(capitals, name, access, count) \
    static const Taking<count, const uint8_t *, size_t, Hart_##access, size_t>::Entry name = vhart_##name;
namespace typed {
EACH_CALL(AS_TYPED)
static vhart_listing (*const explain)(const uint8_t *, size_t, const uint8_t *, size_t, uint64_t, uint64_t, uint64_t,
                                      uint64_t) = vhart_explain;
static vhart_outcome (*const tally)(const uint8_t *, size_t, const uint8_t *, size_t, uint64_t, uint64_t, uint64_t,
                                    uint64_t, vhart_totals *) = vhart_tally;
static vhart_outcome (*const replay)(const uint8_t *, size_t, uint8_t *, size_t, uint8_t *, size_t, const uint8_t *,
                                     size_t, uint8_t *, size_t) = vhart_replay;
static vhart_outcome (*const replay_end)(const uint8_t *, size_t, const uint8_t *, size_t, const uint8_t *,
                                         size_t) = vhart_replay_end;
static vhart_fault (*const check_caps)(const uint8_t *, size_t) = vhart_check_caps;
static vhart_fault (*const check_hart)(const uint8_t *, size_t, const uint8_t *, size_t) = vhart_check_hart;
static vhart_settings (*const settings_read)(const uint8_t *, size_t) = vhart_settings_read;
static vhart_outcome (*const settings_write)(const uint8_t *, size_t, uint8_t *, size_t) = vhart_settings_write;
}

// All of them refuse an empty capability image with 1, and settings_read an empty file with 12.
int main()
{
    const uint8_t caps[1] = {0};
    const uint64_t zeros[NUMBERS] = {0};
    uint8_t hart[1] = {0}, wait[1] = {0}, fragment[1] = {0}, out[1] = {0};
    vhart_totals totals = {};
    bool ok = are_accessors_right() != 0;
#define AS_REFUSED(capitals, name, access, count) \
    ok &= typed::name(caps, 0, hart, 0 TAKEN_##count(zeros)).refusal == VHART_BAD_CAPS;
    EACH_CALL(AS_REFUSED)
    ok &= typed::explain(caps, 0, hart, 0 TAKEN_4(zeros)).refusal == VHART_BAD_CAPS;
    ok &= typed::tally(caps, 0, hart, 0 TAKEN_4(zeros), &totals).refusal == VHART_BAD_CAPS;
    ok &= typed::replay(caps, 0, hart, 0, wait, 0, fragment, 0, out, 0).refusal == VHART_BAD_CAPS;
    ok &= typed::replay_end(caps, 0, hart, 0, wait, 0).refusal == VHART_BAD_CAPS;
    ok &= typed::check_caps(caps, 0).refusal == VHART_BAD_CAPS;
    ok &= typed::check_hart(caps, 0, hart, 0).refusal == VHART_BAD_CAPS;
    ok &= typed::settings_write(caps, 0, hart, 0).refusal == VHART_BAD_CAPS;
    ok &= typed::settings_read(hart, 0).refusal == VHART_BAD_LENGTH;
    return ok ? 0 : 1;
}
