/* Prints what a symbol of a text costs: the instructions and the stack of encoding it, and those of drawing it line by line.
 *
 * INPUT  the number of bytes of the text
 * MOST   the greatest version for which there is memory
 * QRCODEGEN  measures Nayuki's qrcodegen in place of this library
 */
#include "board.h"

#ifndef INPUT
#define INPUT 1
#endif
#ifndef MOST
#define MOST 10
#endif

enum { SIDE = 17 + 4 * MOST, MARGIN = 4, PAINT = 0xA5 };

extern uint8_t stack_begin[];
static uint8_t input[INPUT];

#ifdef QRCODEGEN
#include "qrcodegen.h"

static uint8_t memory[qrcodegen_BUFFER_LEN_FOR_VERSION(MOST)], bits[qrcodegen_BUFFER_LEN_FOR_VERSION(MOST)];

static int encode(void)
{
	size_t k;

	for (k = 0; k < INPUT; k++)
		memory[k] = input[k];
	return qrcodegen_encodeBinary(memory, INPUT, bits, qrcodegen_Ecc_LOW, 1, MOST, qrcodegen_Mask_AUTO, 0);
}

static int draw(void) { return 1; }
#else
#define QRPROVED_CALLER_MEMORY
#include "qrproved.h"

static uint8_t memory[QRPROVED_ENCODE_MEMORY(MOST)], bits[(SIDE * SIDE + 7) / 8], line[3 * (SIDE + 2 * MARGIN) + 1];
static struct qrproved_symbol symbol;

static int encode(void)
{
	return qrproved_encode_bits_in(memory, sizeof memory, input, INPUT, 1, QRPROVED_LEVEL_L, QRPROVED_RULE_BYTES_ONLY,
				       QRPROVED_INTERPRETATION_DEFAULT, 0, bits, sizeof bits, &symbol) == QRPROVED_DONE;
}

static int draw(void)
{
	uint32_t row = 0;
	size_t written;

	while (qrproved_draw_row(bits, sizeof bits, symbol.side, QRPROVED_UTF8, MARGIN, row, line, sizeof line, &written) == QRPROVED_DONE)
		row++;
	return row > 0;
}
#endif

static void print(const char *text)
{
	const char *end = text;

	while (*end)
		end++;
	board_print((const uint8_t *)text, (size_t)(end - text));
}

static void print_number(uint32_t number)
{
	char digits[11], *at = digits + sizeof digits - 1;

	*at = 0;
	do
		*--at = (char)('0' + number % 10);
	while (number /= 10);
	print(at);
}

/* Paints the free part of the stack before a call, and finds afterwards how much of it was written. */
static void measure(const char *name, int call(void))
{
	volatile uint8_t *at, *here = __builtin_frame_address(0);
	uint32_t count;
	int is_done;

	for (at = stack_begin; at < here - 128; at++)
		*at = PAINT;
	board_count_begin();
	is_done = call();
	count = board_count();
	for (at = stack_begin; *at == PAINT; at++)
		;
	print(name);
	print(is_done ? " instructions " : " failed ");
	print_number(count);
	print(" stack ");
	print_number((uint32_t)(here - at));
	print("\n");
}

int main(void)
{
	size_t k;

	for (k = 0; k < INPUT; k++)
		input[k] = (uint8_t)("A0123456789abcdefghijklmnopqrstuvwxyz"[k * 7 % 37]);
	measure("encode", encode);
	measure("draw", draw);
	return 0;
}
