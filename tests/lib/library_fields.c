/* Makes each call of the library for tests/library, and prints each field of each struct: the name that the header has for it, and
 * the value that the library has written there. It also prints the modules and the bytes that the library has written.
 *
 * Standard input has the side of a symbol as one byte, then the modules of the symbol, and then its modules once more, with damage.
 *
 * The numbers that are passed to a call differ from each other, and no two of them could be exchanged without another result. */
#include "qrproved.h"
#include <stdio.h>
#include <stdlib.h>
#include <string.h>

#define TELL(field) printf("%s %llu\n", #field, (unsigned long long)(field))

static const uint8_t DIGITS[] = "314159265358979323846264338327950288419716939937510582097494";
static uint8_t modules[QRPROVED_SERIES_MAX], parsed[QRPROVED_SERIES_MAX], bytes[QRPROVED_BYTES_MAX], text[20000];

static void want_done(const char *call, uint8_t status)
{
	if (status != QRPROVED_DONE) {
		printf("%s: status %d\n", call, status);
		exit(1);
	}
}

static void tell_all(const char *name, const uint8_t *all, size_t len)
{
	printf("%s ", name);
	for (size_t i = 0; i < len; i++)
		printf("%02x", all[i]);
	puts("");
}

static void encode(void)
{
	struct qrproved_symbol symbol, other;
	size_t written;
	want_done("encode", qrproved_encode(DIGITS, sizeof DIGITS - 1, 4, QRPROVED_LEVEL_Q, QRPROVED_RULE_AUTO, QRPROVED_ECI_UTF8, 1,
	                                    modules, sizeof modules, &symbol));
	TELL(symbol.version), TELL(symbol.side), TELL(symbol.level), TELL(symbol.mask);
	tell_all("encoded", modules, (size_t)symbol.side * symbol.side);
	uint8_t largest = 99;
	want_done("encode_logo", qrproved_encode_logo(DIGITS, sizeof DIGITS - 1, 2, QRPROVED_LEVEL_M, QRPROVED_RULE_AUTO, QRPROVED_ECI_UTF8, 5, 40,
	                                              modules, sizeof modules, &other, &largest));
	printf("for_logo %u %u %u %u\n", other.version, other.side, other.level, other.mask);
	tell_all("encoded_for_logo", modules, (size_t)other.side * other.side);
	printf("status_of_logo %u\n", qrproved_encode_logo(DIGITS, sizeof DIGITS - 1, 39, QRPROVED_LEVEL_Q, QRPROVED_RULE_AUTO, QRPROVED_ECI_UTF8, 97, 42,
	                                                   modules, sizeof modules, &other, &largest));
	printf("largest_logo %u\n", largest);
	want_done("encode_bits", qrproved_encode_bits(DIGITS, sizeof DIGITS - 1, 4, QRPROVED_LEVEL_Q, QRPROVED_RULE_AUTO, QRPROVED_ECI_UTF8, 1,
	                                              modules, sizeof modules, &other));
	tell_all("bits", modules, QRPROVED_BITS(other.side));
	want_done("draw_row", qrproved_draw_row(modules, sizeof modules, other.side, QRPROVED_ASCIIi, 6, 9, text, sizeof text, &written));
	tell_all("line", text, written);
}

/* Encodes 75 times one kanji of Shift JIS, draws two of the symbols, and parses the drawing. */
static void encode_series(void)
{
	struct qrproved_series series;
	struct qrproved_drawn drawn;
	static uint8_t document[40000];
	uint8_t kanji[150];
	size_t written, document_len; /* of the text, and of what is written beside it */
	for (size_t i = 0; i < sizeof kanji; i++)
		kanji[i] = i % 2 ? 0x5F : 0x93;
	want_done("encode_series", qrproved_encode_series(kanji, sizeof kanji, 3, QRPROVED_LEVEL_L, QRPROVED_RULE_WITH_KANJI, 20,
	                                                  modules, sizeof modules, &series));
	TELL(series.count), TELL(series.side);
	tell_all("series", modules, (size_t)series.count * series.side * series.side);
	want_done("draw", qrproved_draw(modules, sizeof modules, series.side, 2, QRPROVED_ASCIIi, 6, text, sizeof text, &written));
	tell_all("text", text, written);
	static uint8_t masked[29 * 29];
	memcpy(masked, modules, sizeof masked);
	want_done("set_mask", qrproved_set_mask(masked, sizeof masked, 29, 5));
	tell_all("masked", masked, sizeof masked);
	want_done("image", qrproved_image(modules, sizeof modules, series.side, QRPROVED_TSPL, 2, 3, 5, 7, 11, document, sizeof document, &document_len));
	tell_all("image", document, document_len);
	want_done("png", qrproved_png(modules, sizeof modules, series.side, 2, 3, 11, 0x01020304, 0xFAFBFCFD, document, sizeof document, &document_len));
	tell_all("png", document, document_len);
	want_done("document", qrproved_document(modules, sizeof modules, series.side, 2, QRPROVED_EPS, 6, 330, document, sizeof document, &document_len));
	tell_all("document", document, document_len);
	want_done("pdf", qrproved_pdf(modules, sizeof modules, series.side, 2, 6, 330, 0x010203FF, 0xFAFBFCFF, document, sizeof document, &document_len));
	tell_all("pdf", document, document_len);
	const struct qrproved_sheet sheet = {60000, 50000, 1000, 2000, 20000, 15000, 2, 3, 5};
	want_done("sheets", qrproved_sheets(modules, sizeof modules, series.side, 2, 6, 330, &sheet, document, sizeof document, &document_len));
	TELL(sheet.width), TELL(sheet.height), TELL(sheet.left), TELL(sheet.top), TELL(sheet.across), TELL(sheet.down);
	TELL(sheet.columns), TELL(sheet.rows), TELL(sheet.first);
	tell_all("sheets", document, document_len);
	want_done("parse_drawing", qrproved_parse_drawing(text, written, parsed, sizeof parsed, &drawn));
	TELL(drawn.drawing), TELL(drawn.margin), TELL(drawn.count), TELL(drawn.side);
	tell_all("parsed", parsed, (size_t)drawn.count * drawn.side * drawn.side);
}

/* A picture of 111 by 119 pixels, with 113 bytes from row to row. The square begins at column 5 and row 9, and a module has three
 * pixels on a side. The first picture is light on dark, the second is turned by a quarter, and the third is mirrored and turned by a
 * half. */
enum { PICTURES = 3, SIDE = 33, WIDTH = 111, HEIGHT = 119, STRIDE = 113, LEFT = 5, TOP = 9, SCALE = 3 };

static void draw_picture(int number, uint8_t *pixels)
{
	for (int y = 0; y < HEIGHT; y++)
		for (int x = 0; x < STRIDE; x++) {
			int row = (y - TOP) / SCALE, column = (x - LEFT) / SCALE, last = SIDE - 1;
			int is_dark = y >= TOP && x >= LEFT && row <= last && column <= last
			              && modules[number == 0 ? row * SIDE + column : number == 1 ? (last - column) * SIDE + row : (last - column) * SIDE + last - row];
			pixels[y * STRIDE + x] = x >= WIDTH ? 99 : (number == 0) == is_dark ? 250 : 20;
		}
}

/* Tells a field in all three pictures at once: three numbers below 10,000. */
#define TELL_FOUND(field) printf("found.%s %llu\n", #field, all[0].field + 10000ULL * all[1].field + 100000000ULL * all[2].field)

/* Finds the symbol of 4-Q in the three pictures. */
static void find(void)
{
	static uint8_t pixels[HEIGHT * STRIDE], found[QRPROVED_SYMBOL_MAX];
	struct qrproved_found all[PICTURES];
	struct qrproved_symbol symbol;
	size_t count;
	want_done("encode", qrproved_encode(DIGITS, sizeof DIGITS - 1, 4, QRPROVED_LEVEL_Q, QRPROVED_RULE_AUTO, QRPROVED_ECI_UTF8, 1,
	                                    modules, sizeof modules, &symbol));
	for (int number = 0; number < PICTURES; number++) {
		draw_picture(number, pixels);
		want_done("find", qrproved_find(pixels, (HEIGHT - 1) * STRIDE + WIDTH, WIDTH, HEIGHT, STRIDE, 0, found, sizeof found, &all[number], 1, &count));
		if (count == 1)
			tell_all(number == 0 ? "found" : number == 1 ? "found_turned" : "found_mirrored", found, SIDE * SIDE);
	}
	TELL_FOUND(x0), TELL_FOUND(y0), TELL_FOUND(x1), TELL_FOUND(y1), TELL_FOUND(x2), TELL_FOUND(y2), TELL_FOUND(x3), TELL_FOUND(y3);
	TELL_FOUND(side), TELL_FOUND(quarter_turns), TELL_FOUND(is_inverse), TELL_FOUND(is_mirrored), TELL_FOUND(is_read);
}

static void read_and_mend(void)
{
	struct qrproved_content content;
	struct qrproved_mended mended;
	struct qrproved_eci ecis[3], eci;
	uint32_t side = (uint32_t)getchar();
	size_t area = (size_t)side * side;
	if (fread(modules, 1, 2 * area, stdin) != 2 * area)
		return;
	want_done("read", qrproved_read(modules, area, side, bytes, sizeof bytes, ecis, 3, &content));
	TELL(content.len), TELL(content.eci_count), TELL(content.version), TELL(content.has_header), TELL(content.position);
	TELL(content.last), TELL(content.parity), TELL(content.fnc1), TELL(content.application), TELL(content.has_kanji);
	tell_all("read", bytes, content.len);
	eci = ecis[1];
	TELL(eci.begin), TELL(eci.number);
	want_done("mend", qrproved_mend(modules + area, area, side, bytes, sizeof bytes, ecis, 3, &mended));
	TELL(mended.len), TELL(mended.eci_count), TELL(mended.wrong_modules), TELL(mended.version), TELL(mended.has_header);
	TELL(mended.position), TELL(mended.last), TELL(mended.parity), TELL(mended.fnc1), TELL(mended.application);
	TELL(mended.has_kanji), TELL(mended.wrong_format_least), TELL(mended.spent_most);
	TELL(mended.worst_misread), TELL(mended.worst_unknown), TELL(mended.worst_unknown_wrong);
	TELL(mended.level), TELL(mended.mask), TELL(mended.wrong_format_modules), TELL(mended.changed_most), TELL(mended.changed_allowed);
	tell_all("mended", bytes, mended.len);
}

int main(void)
{
	encode();
	encode_series();
	find();
	read_and_mend();
	return 0;
}
