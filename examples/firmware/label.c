/* Prints the symbol of a text line by line. It never has more of the symbol than its modules as bits, and of the drawing than a line.
 *
 * These names may be defined when this file is compiled:
 * TEXT   the text, in ASCII
 * LEAST  the smallest version that the symbol may have
 * MOST   the greatest version for which there is memory
 * LEVEL, RULE, DRAWING  as in qrproved.h
 * ENCODE_ALONE  the library only encodes, and this program draws, in ASCII */
#define QRPROVED_CALLER_MEMORY
#include "qrproved.h"

#include "board.h"

#ifndef TEXT
#define TEXT "A"
#endif
#ifndef LEAST
#define LEAST 1
#endif
#ifndef MOST
#define MOST 10
#endif
#ifndef LEVEL
#define LEVEL QRPROVED_LEVEL_L
#endif
#ifndef RULE
#define RULE QRPROVED_RULE_AUTO
#endif
#ifndef DRAWING
#define DRAWING QRPROVED_UTF8
#endif

enum { SIDE = 17 + 4 * MOST, MARGIN = 4 };

static const uint8_t INPUT[] = TEXT;
static uint8_t memory[QRPROVED_ENCODE_MEMORY(MOST)], bits[(SIDE * SIDE + 7) / 8];

static void print(const char *text)
{
	size_t len = 0;

	while (text[len])
		len++;
	board_print((const uint8_t *)text, len);
}

#ifdef ENCODE_ALONE
static int is_dark(int side, int row, int column)
{
	int k = row * side + column;

	return row >= 0 && row < side && column >= 0 && column < side && bits[k / 8] >> (7 - k % 8) & 1;
}

static void draw(int side)
{
	int row, column;

	for (row = -MARGIN; row < side + MARGIN; row++) {
		for (column = -MARGIN; column < side + MARGIN; column++)
			print(is_dark(side, row, column) ? "##" : "  ");
		print("\n");
	}
}
#else
static void draw(int side)
{
	static uint8_t line[3 * (SIDE + 2 * MARGIN) + 1]; /* a character of UTF-8 has three bytes */
	uint32_t row = 0;
	size_t len;

	while (qrproved_draw_row(bits, sizeof bits, (uint32_t)side, DRAWING, MARGIN, row++, line, sizeof line, &len) == QRPROVED_DONE)
		board_print(line, len);
}
#endif

int main(void)
{
	struct qrproved_symbol symbol;
	uint8_t status = qrproved_encode_bits_in(memory, sizeof memory, INPUT, sizeof INPUT - 1, LEAST, LEVEL, RULE,
						 QRPROVED_INTERPRETATION_DEFAULT, 0, bits, sizeof bits, &symbol);

	if (status == QRPROVED_DONE)
		draw(symbol.side);
	else
		print(status == QRPROVED_TOO_LONG ? "the text is too long\n" : "there is too little memory\n");
	return 0;
}
