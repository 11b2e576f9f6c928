/* What the programs of this folder need of a board. cortex.c and riscv.c have it for two boards of qemu. */
#ifndef BOARD_H
#define BOARD_H

#include <stddef.h>
#include <stdint.h>

void board_begin(void);                            /* start.c calls it before main */
void board_print(const uint8_t *text, size_t len); /* writes bytes to the serial port */
void board_end(void);                              /* ends qemu */

/* For costs.c, if qemu counts instructions, as it does with -icount shift=0: the instructions since the count began, with an error
 * of less than 100. The Cortex-M4 counts at most 671 millions. */
void board_count_begin(void);
uint32_t board_count(void);

#endif
