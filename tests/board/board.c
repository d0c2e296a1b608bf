/* board.c: the UART and the switch of qemu's virt machine, and the trap that must not come. */
#include "board.h"

#define UART ((volatile uint8_t *)0x10000000) /* an NS16550 */
#define UART_STATUS 5
#define UART_EMPTY 0x20 /* it takes the next byte */

#define SWITCH ((volatile uint32_t *)0x100000) /* SiFive's test device */
#define SWITCH_PASS 0x5555
#define SWITCH_FAIL 0x3333

void board_put(char byte)
{
    while ((UART[UART_STATUS] & UART_EMPTY) == 0) continue;
    UART[0] = (uint8_t)byte;
}

void board_say(const char *text)
{
    while (*text != '\0') board_put(*text++);
}

__attribute__((noreturn)) void board_off(int status)
{
    *SWITCH = status == 0 ? SWITCH_PASS : (uint32_t)status << 16 | SWITCH_FAIL;
    for (;;) continue;
}

static void say_hex(const char *name, uint64_t value)
{
    board_say(name);
    for (int i = 60; i >= 0; i -= 4) board_put("0123456789abcdef"[value >> i & 15]);
}

__attribute__((noreturn)) void board_trapped(uint64_t mcause, uint64_t mepc, uint64_t mtval)
{
    say_hex("trap: mcause 0x", mcause);
    say_hex(", mepc 0x", mepc);
    say_hex(", mtval 0x", mtval);
    board_put('\n');
    board_off(3);
}
