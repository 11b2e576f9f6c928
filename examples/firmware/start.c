/* Starts a program: puts its variables into RAM, and calls main. The names of the places are those of the linker scripts. */
#include "board.h"

extern uint32_t data_begin[], data_end[], data_load[], bss_begin[], bss_end[];
int main(void);

void start(void)
{
	uint32_t *to;
	const uint32_t *from = data_load;

	for (to = data_begin; to < data_end; to++)
		*to = *from++;
	for (to = bss_begin; to < bss_end; to++)
		*to = 0;
	board_begin();
	main();
	board_end();
}
