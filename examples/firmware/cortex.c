/* A Cortex-M4: the board mps2-an386 of qemu. */
#include "board.h"

#define REGISTER(address) (*(volatile uint32_t *)(uintptr_t)(address))

/* The serial port, and the timer of the processor, which counts down from its 24 bits. */
#define UART_DATA REGISTER(0x40004000)
#define UART_STATE REGISTER(0x40004004) /* bit 0: the port takes no byte now */
#define UART_CONTROL REGISTER(0x40004008)
#define UART_DIVISOR REGISTER(0x40004010)
#define TIMER_CONTROL REGISTER(0xE000E010)
#define TIMER_RELOAD REGISTER(0xE000E014)
#define TIMER REGISTER(0xE000E018)
#define TIMER_MAX 0xFFFFFF

extern uint32_t stack_end[];
void start(void);

/* The processor begins with this stack, at this function. */
__attribute__((section(".vectors"), used)) static const void *const VECTORS[16] = {stack_end, (void *)start};

void board_begin(void)
{
	UART_DIVISOR = 16;
	UART_CONTROL = 1; /* sends */
}

void board_print(const uint8_t *text, size_t len)
{
	for (; len; len--) {
		while (UART_STATE & 1)
			;
		UART_DATA = *text++;
	}
}

void board_count_begin(void)
{
	TIMER_RELOAD = TIMER_MAX;
	TIMER = 0;         /* whatever is written, it begins anew */
	TIMER_CONTROL = 5; /* with the clock of the processor, whose 25 MHz are a tick for 40 instructions */
}

uint32_t board_count(void) { return (TIMER_MAX - TIMER) * 40; }

/* A request to the debugger, whose place qemu takes: the program has ended. */
void board_end(void)
{
	register uint32_t request __asm__("r0") = 0x18, reason __asm__("r1") = 0x20026;

	__asm__ volatile("bkpt 0xAB" : : "r"(request), "r"(reason) : "memory");
	for (;;)
		;
}
