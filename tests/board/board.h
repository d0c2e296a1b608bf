/* board.h: what the images have of qemu's virt machine: a line out, and the switch. */
#ifndef BOARD_H
#define BOARD_H

#include <stdint.h>

void board_put(char byte);
void board_say(const char *text);

/* Powers off; qemu ends with this status. */
__attribute__((noreturn)) void board_off(int status);

/* Where start.S goes with a trap. */
__attribute__((noreturn)) void board_trapped(uint64_t mcause, uint64_t mepc, uint64_t mtval);

#endif
