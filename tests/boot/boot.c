/* boot.c: the lines of text that the payload and the firmware print, `what: value` each. */
#include "boot.h"

volatile struct trap trap;

uint64_t behind(uint64_t pc) { return pc + ((*(const uint16_t *)pc & 3) == 3 ? 4 : 2); }

void say(const char *text)
{
    while (*text != '\0') put(*text++);
}

void say_hex(uint64_t value)
{
    int shift = 60;
    while (shift > 0 && value >> shift == 0) shift -= 4;
    say("0x");
    for (; shift >= 0; shift -= 4) put("0123456789abcdef"[value >> shift & 15]);
}

void say_word(const char *what, const char *word)
{
    say(what);
    say(": ");
    say(word);
    put('\n');
}

void say_value(const char *what, uint64_t value)
{
    say(what);
    say(": ");
    say_hex(value);
    put('\n');
}

void tell(const char *what, uint64_t value)
{
    /* Printing may trap too, so the trap is read before. */
    struct trap now = trap;
    if (now.came == 0) {
        say_value(what, value);
        return;
    }
    say(what);
    say(": cause ");
    say_hex(now.cause);
    say(", value ");
    say_hex(now.value);
    if (now.came > 1) say(", and before it another");
    put('\n');
}
