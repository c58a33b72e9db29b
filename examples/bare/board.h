/* What this image takes of the board: a Cortex-M with SysTick, and a debugger (here QEMU) that prints by semihosting. */
#ifndef BOARD_H
#define BOARD_H

#include <stdint.h>

uint32_t board_clock(void);      /* milliseconds, by SysTick; starts shortly before the wrap */
void board_wait(void);           /* sleeps until an interrupt, the next millisecond at the latest */
uint32_t board_stack_used(void); /* bytes, the deepest since reset */
void board_say(const char *text);

#endif
