/* A RISC-V of 32 bits: the board virt of qemu. */
#include "board.h"

#define UART_DATA (*(volatile uint8_t *)0x10000000)
#define UART_STATE (*(volatile uint8_t *)0x10000005) /* bit 5: the port takes a byte now */
#define END (*(volatile uint32_t *)0x00100000)

/* The processor begins here. */
__asm__(".section .vectors, \"ax\"\n"
        "la sp, stack_end\n"
        "j start\n"
        ".text");

void board_begin(void) {}

void board_print(const uint8_t *text, size_t len)
{
	for (; len; len--) {
		while (!(UART_STATE & 0x20))
			;
		UART_DATA = *text++;
	}
}

/* The register minstret. (The compiler knows its name only for machines with Zicsr, for which Debian has no library.) */
static uint32_t instructions(void)
{
	uint32_t count;

	__asm__ volatile(".insn i 0x73, 2, %0, x0, -1278" : "=r"(count));
	return count;
}

static uint32_t count_begin;

void board_count_begin(void) { count_begin = instructions(); }

uint32_t board_count(void) { return instructions() - count_begin; }

void board_end(void)
{
	END = 0x5555;
	for (;;)
		;
}
