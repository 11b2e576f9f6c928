/* Calls the library for tests/library: library_calls WHAT
 *
 * WHAT is `encode`, `encode_logo`, `encode_series`, `read`, `mend`, `draw`, `parse_drawing` or `find` for one such call, in which a growth of
 * memory may be refused. Then the program prints what came of the call. `encode_eci`, `encode_gs1`, `encode_series_gs1`,
 * `read_ecis`, `read_gs1` and `mend_ecis` are such calls with ECI headers or GS1 data. `edges` calls with lengths of 0, with buffers
 * that are just large enough, and with symbols that have ECI headers or GS1 data. `threads` makes calls in eight
 * threads, whose results have to be those of one thread. */
#include "labels.h"
#include "qrproved.h"
#include <pthread.h>
#include <stdio.h>
#include <string.h>

enum { THREADS = 8, CALLS = 40, MARK = 7, NONE = QRPROVED_INTERPRETATION_DEFAULT };

static const uint8_t TEXT[] = "0123456789ABCDEFGHabcdefgh,.0123456789ABCDEFGHabcdefgh,.0123456789ABCDEFGHabcdefgh,.";
static uint8_t modules[QRPROVED_SERIES_MAX], bytes[QRPROVED_BYTES_MAX];

static int is_marked(const void *all, size_t from, size_t to)
{
	for (size_t i = from; i < to; i++)
		if (((const uint8_t *)all)[i] != MARK)
			return 0;
	return 1;
}

/* What came of a call: its status, and whether a buffer and a struct are as they were. */
static void tell(const char *name, uint8_t status, const uint8_t *buffer, size_t buffer_len, const void *told, size_t told_len)
{
	int is_unchanged = is_marked(buffer, 0, buffer_len) && is_marked(told, 0, told_len);
	printf("%s: status %d, %s\n", name, status, is_unchanged ? "all unchanged" : "changed");
}

static int encode(void)
{
	struct qrproved_symbol symbol;
	memset(modules, MARK, sizeof modules), memset(&symbol, MARK, sizeof symbol);
	uint8_t status = qrproved_encode(TEXT, sizeof TEXT - 1, 1, 0, 0, NONE, 0, modules, sizeof modules, &symbol);
	tell("encode", status, modules, sizeof modules, &symbol, sizeof symbol);
	return 0;
}

static int encode_bits(void)
{
	struct qrproved_symbol symbol;
	memset(modules, MARK, sizeof modules), memset(&symbol, MARK, sizeof symbol);
	uint8_t status = qrproved_encode_bits(TEXT, sizeof TEXT - 1, 1, 0, 0, NONE, 0, modules, sizeof modules, &symbol);
	tell("encode_bits", status, modules, sizeof modules, &symbol, sizeof symbol);
	return 0;
}

static int encode_logo(void)
{
	struct {
		struct qrproved_symbol symbol;
		uint8_t largest;
	} told;
	memset(modules, MARK, sizeof modules), memset(&told, MARK, sizeof told);
	uint8_t status = qrproved_encode_logo(TEXT, sizeof TEXT - 1, 1, 0, 0, NONE, 9, 50, modules, sizeof modules, &told.symbol, &told.largest);
	tell("encode_logo", status, modules, sizeof modules, &told, sizeof told);
	return 0;
}

static int encode_series(void)
{
	struct qrproved_series series;
	memset(modules, MARK, sizeof modules), memset(&series, MARK, sizeof series);
	uint8_t status = qrproved_encode_series(TEXT, sizeof TEXT - 1, 2, 1, 0, NONE, modules, sizeof modules, &series);
	tell("encode_series", status, modules, sizeof modules, &series, sizeof series);
	return 0;
}

static int read_symbol(void)
{
	struct qrproved_symbol symbol;
	struct qrproved_content content;
	if (qrproved_encode(TEXT, sizeof TEXT - 1, 1, 0, 0, NONE, 0, modules, sizeof modules, &symbol)) {
		puts("read: not prepared");
		return 0;
	}
	memset(bytes, MARK, sizeof bytes), memset(&content, MARK, sizeof content);
	uint8_t status = qrproved_read(modules, sizeof modules, symbol.side, bytes, sizeof bytes, NULL, 0, &content);
	tell("read", status, bytes, sizeof bytes, &content, sizeof content);
	return 0;
}

static int mend_symbol(void)
{
	struct qrproved_symbol symbol;
	struct qrproved_mended mended;
	if (qrproved_encode(TEXT, sizeof TEXT - 1, 1, 0, 0, NONE, 0, modules, sizeof modules, &symbol)) {
		puts("mend: not prepared");
		return 0;
	}
	/* a codeword is wrong */
	modules[symbol.side * symbol.side - 1] ^= 1;
	memset(bytes, MARK, sizeof bytes), memset(&mended, MARK, sizeof mended);
	uint8_t status = qrproved_mend(modules, sizeof modules, symbol.side, bytes, sizeof bytes, NULL, 0, &mended);
	tell("mend", status, bytes, sizeof bytes, &mended, sizeof mended);
	return 0;
}

static int draw(void)
{
	static uint8_t text[20000];
	struct qrproved_symbol symbol;
	size_t written;
	if (qrproved_encode(TEXT, sizeof TEXT - 1, 1, 0, 0, NONE, 0, modules, sizeof modules, &symbol)) {
		puts("draw: not prepared");
		return 0;
	}
	memset(text, MARK, sizeof text), memset(&written, MARK, sizeof written);
	uint8_t status = qrproved_draw(modules, sizeof modules, symbol.side, 1, QRPROVED_SVG, 4, text, sizeof text, &written);
	tell("draw", status, text, sizeof text, &written, sizeof written);
	return 0;
}

static int document(void)
{
	static uint8_t text[20000];
	struct qrproved_symbol symbol;
	size_t written;
	if (qrproved_encode(TEXT, sizeof TEXT - 1, 1, 0, 0, NONE, 0, modules, sizeof modules, &symbol)) {
		puts("document: not prepared");
		return 0;
	}
	memset(text, MARK, sizeof text), memset(&written, MARK, sizeof written);
	uint8_t status = qrproved_document(modules, sizeof modules, symbol.side, 1, QRPROVED_PDF, 4, 330, text, sizeof text, &written);
	tell("document", status, text, sizeof text, &written, sizeof written);
	return 0;
}

static int pdf(void)
{
	static uint8_t text[20000];
	struct qrproved_symbol symbol;
	size_t written;
	if (qrproved_encode(TEXT, sizeof TEXT - 1, 1, 0, 0, NONE, 0, modules, sizeof modules, &symbol)) {
		puts("pdf: not prepared");
		return 0;
	}
	memset(text, MARK, sizeof text), memset(&written, MARK, sizeof written);
	uint8_t status = qrproved_pdf(modules, sizeof modules, symbol.side, 1, 4, 330, 0xFF, 0, text, sizeof text, &written);
	tell("pdf", status, text, sizeof text, &written, sizeof written);
	return 0;
}

/* A paper of one column and one row. A symbol fits whose side is 10,000 micrometres at most. */
static const struct qrproved_sheet PAPER = {10000, 10000, 0, 0, 0, 0, 1, 1, 0};

static int sheets(void)
{
	static uint8_t text[20000];
	struct qrproved_symbol symbol;
	size_t written;
	if (qrproved_encode(TEXT, sizeof TEXT - 1, 1, 0, 0, NONE, 0, modules, sizeof modules, &symbol)) {
		puts("sheets: not prepared");
		return 0;
	}
	memset(text, MARK, sizeof text), memset(&written, MARK, sizeof written);
	uint8_t status = qrproved_sheets(modules, sizeof modules, symbol.side, 1, 0, 200, &PAPER, text, sizeof text, &written);
	tell("sheets", status, text, sizeof text, &written, sizeof written);
	return 0;
}

static int parse_drawing(void)
{
	static uint8_t text[20000];
	struct qrproved_symbol symbol;
	struct qrproved_drawn drawn;
	size_t written;
	if (qrproved_encode(TEXT, sizeof TEXT - 1, 1, 0, 0, NONE, 0, modules, sizeof modules, &symbol)
	    || qrproved_draw(modules, sizeof modules, symbol.side, 1, QRPROVED_SVG, 4, text, sizeof text, &written)) {
		puts("parse_drawing: not prepared");
		return 0;
	}
	memset(modules, MARK, sizeof modules), memset(&drawn, MARK, sizeof drawn);
	uint8_t status = qrproved_parse_drawing(text, written, modules, sizeof modules, &drawn);
	tell("parse_drawing", status, modules, sizeof modules, &drawn, sizeof drawn);
	return 0;
}

/* A picture with a symbol that is four pixels a module, and with one grey pixel, so that it is no clean picture. */
enum { PIXELS = 200 };

static int find(void)
{
	static uint8_t pixels[PIXELS * PIXELS];
	struct qrproved_symbol symbol;
	struct {
		struct qrproved_found one[2];
		size_t count;
	} told;
	if (qrproved_encode(TEXT, sizeof TEXT - 1, 1, 0, 0, NONE, 0, modules, sizeof modules, &symbol)) {
		puts("find: not prepared");
		return 0;
	}
	for (int y = 0; y < PIXELS; y++)
		for (int x = 0; x < PIXELS; x++) {
			int row = y / 4 - 4, column = x / 4 - 4, side = symbol.side;
			int is_inside = row >= 0 && column >= 0 && row < side && column < side;
			pixels[y * PIXELS + x] = is_inside && modules[row * side + column] ? 0 : x + y ? 255 : 128;
		}
	memset(modules, MARK, sizeof modules), memset(&told, MARK, sizeof told);
	uint8_t status = qrproved_find(pixels, sizeof pixels, PIXELS, PIXELS, PIXELS, 0, modules, sizeof modules, told.one, 2, &told.count);
	tell("find", status, modules, sizeof modules, &told, sizeof told);
	return 0;
}

/* GS1 data with a separator and a `%`, which alphanumeric mode writes as `%` and `%%`. */
static const uint8_t GS1_DATA[] = "0104012345678901" "10A%C-123\x1D" "17261231";

/* Encodes with `boost` 1. */
static int encode_as(const char *name, const uint8_t *input, size_t len, uint32_t interpretation)
{
	struct qrproved_symbol symbol;
	memset(modules, MARK, sizeof modules), memset(&symbol, MARK, sizeof symbol);
	uint8_t status = qrproved_encode(input, len, 1, 0, 0, interpretation, 1, modules, sizeof modules, &symbol);
	tell(name, status, modules, sizeof modules, &symbol, sizeof symbol);
	return 0;
}

static int encode_series_gs1(void)
{
	struct qrproved_series series;
	memset(modules, MARK, sizeof modules), memset(&series, MARK, sizeof series);
	uint8_t status = qrproved_encode_series(GS1_DATA, sizeof GS1_DATA - 1, 1, 2, 0, QRPROVED_INTERPRETATION_GS1, modules, sizeof modules, &series);
	tell("encode_series_gs1", status, modules, sizeof modules, &series, sizeof series);
	return 0;
}

static int read_label(const char *name, const struct label *label)
{
	struct {
		struct qrproved_content content;
		struct qrproved_eci ecis[3];
	} told;
	put_label(label, modules);
	memset(bytes, MARK, sizeof bytes), memset(&told, MARK, sizeof told);
	uint8_t status = qrproved_read(modules, sizeof modules, label->side, bytes, sizeof bytes, told.ecis, 3, &told.content);
	tell(name, status, bytes, sizeof bytes, &told, sizeof told);
	return 0;
}

static int mend_ecis(void)
{
	struct {
		struct qrproved_mended mended;
		struct qrproved_eci ecis[3];
	} told;
	put_label(&TWO_ECIS, modules);
	/* a codeword is wrong */
	modules[TWO_ECIS.side * TWO_ECIS.side - 1] ^= 1;
	memset(bytes, MARK, sizeof bytes), memset(&told, MARK, sizeof told);
	uint8_t status = qrproved_mend(modules, sizeof modules, TWO_ECIS.side, bytes, sizeof bytes, told.ecis, 3, &told.mended);
	tell("mend_ecis", status, bytes, sizeof bytes, &told, sizeof told);
	return 0;
}

static int wrong;

static void want(const char *name, int is_so)
{
	if (!is_so) {
		printf("FAILED: %s\n", name);
		wrong = 1;
	}
}

/* A symbol with two ECI headers, read with room for both, for one and for none. */
static void two_ecis(void)
{
	static const char SAID[] = "0123456789ABC-123 %45";
	static uint8_t label[QRPROVED_SYMBOL_MAX];
	struct qrproved_eci ecis[3];
	struct qrproved_content content;
	struct qrproved_mended mended;
	size_t side = TWO_ECIS.side;
	put_label(&TWO_ECIS, label);
	for (size_t room = 0; room <= 3; room++) {
		memset(bytes, MARK, sizeof bytes), memset(ecis, MARK, sizeof ecis);
		want("two ECI headers", qrproved_read(label, side * side, TWO_ECIS.side, bytes, sizeof bytes, room ? ecis : NULL, room, &content) == QRPROVED_DONE);
		want("all are counted", content.eci_count == 2 && content.fnc1 == QRPROVED_FNC1_NONE && content.application == 0);
		want("the bytes", content.len == 21 && !memcmp(bytes, SAID, 21) && is_marked(bytes, 21, sizeof bytes));
		want("the first", room < 1 || (ecis[0].begin == 0 && ecis[0].number == 20));
		want("the second", room < 2 || (ecis[1].begin == 10 && ecis[1].number == 899));
		want("no more than there is room for", is_marked(ecis, (room < 2 ? room : 2) * sizeof *ecis, sizeof ecis));
	}
	label[side * side - 1] ^= 1;
	memset(bytes, MARK, sizeof bytes), memset(ecis, MARK, sizeof ecis);
	memset(&content, MARK, sizeof content), memset(&mended, MARK, sizeof mended);
	want("a wrong codeword", qrproved_read(label, side * side, TWO_ECIS.side, bytes, sizeof bytes, ecis, 3, &content) == QRPROVED_CHECK);
	want("20 bytes", qrproved_mend(label, side * side, TWO_ECIS.side, bytes, 20, ecis, 3, &mended) == QRPROVED_ROOM);
	want("no ECI header is written", is_marked(bytes, 0, sizeof bytes) && is_marked(ecis, 0, sizeof ecis)
	     && is_marked(&content, 0, sizeof content) && is_marked(&mended, 0, sizeof mended));
	want("two ECI headers, mended", qrproved_mend(label, side * side, TWO_ECIS.side, bytes, 21, ecis, 1, &mended) == QRPROVED_DONE);
	want("all are counted, mended", mended.eci_count == 2 && mended.len == 21 && !memcmp(bytes, SAID, 21) && mended.wrong_modules == 1);
	want("one is written", ecis[0].begin == 0 && ecis[0].number == 20 && is_marked(ecis, sizeof *ecis, sizeof ecis));
}

/* A symbol of GS1 data: a batch number of four characters, which a separator ends, and a date and time. */
static void fields(void)
{
	static const char SAID[] = "109NJY\x1D" "800837090120";
	static uint8_t label[QRPROVED_SYMBOL_MAX];
	struct qrproved_eci ecis[1];
	struct qrproved_content content;
	struct qrproved_mended mended;
	size_t side = FIELDS.side;
	put_label(&FIELDS, label);
	memset(bytes, MARK, sizeof bytes), memset(ecis, MARK, sizeof ecis);
	want("room for 18 bytes of GS1 data", qrproved_read(label, side * side, FIELDS.side, bytes, 18, ecis, 1, &content) == QRPROVED_ROOM);
	want("GS1 data", qrproved_read(label, side * side, FIELDS.side, bytes, sizeof bytes, ecis, 1, &content) == QRPROVED_DONE);
	want("its fields", content.len == 19 && !memcmp(bytes, SAID, 19) && content.fnc1 == QRPROVED_FNC1_FIRST && content.application == 0);
	want("it has no ECI header", content.eci_count == 0 && is_marked(ecis, 0, sizeof ecis));
	label[side * side - 1] = 2;
	want("GS1 data, mended", qrproved_mend(label, side * side, FIELDS.side, bytes, sizeof bytes, ecis, 1, &mended) == QRPROVED_DONE);
	want("its fields, mended", mended.len == 19 && !memcmp(bytes, SAID, 19) && mended.fnc1 == QRPROVED_FNC1_FIRST && mended.wrong_modules == 1);
}

/* A symbol as bytes and as bits, and its texts as a whole and line by line. */
static void bits_and_lines(void)
{
	static uint8_t bits[QRPROVED_BITS(177)], text[20000], line[QRPROVED_ROW(QRPROVED_UTF8, 177, 100)];
	struct qrproved_symbol symbol, other;
	size_t written, len, line_len, at, k;
	uint32_t drawing, row;
	uint8_t status;
	want("a symbol as bytes", qrproved_encode(TEXT, sizeof TEXT - 1, 1, 0, 0, NONE, 0, modules, sizeof modules, &symbol) == QRPROVED_DONE);
	len = QRPROVED_BITS(symbol.side);
	memset(bits, MARK, sizeof bits), memset(&other, MARK, sizeof other);
	want("bits too few by a byte", qrproved_encode_bits(TEXT, sizeof TEXT - 1, 1, 0, 0, NONE, 0, bits, len - 1, &other) == QRPROVED_ROOM);
	want("no bytes as bits", qrproved_encode_bits(NULL, 0, 1, 0, 0, NONE, 0, bits, sizeof bits, &other) == QRPROVED_EMPTY);
	want("level 4 as bits", qrproved_encode_bits(TEXT, sizeof TEXT - 1, 1, 4, 0, NONE, 0, bits, sizeof bits, &other) == QRPROVED_SETTINGS);
	want("boost 2 as bits", qrproved_encode_bits(TEXT, sizeof TEXT - 1, 1, 0, 0, NONE, 2, bits, sizeof bits, &other) == QRPROVED_SETTINGS);
	want("no bits", is_marked(bits, 0, sizeof bits) && is_marked(&other, 0, sizeof other));
	want("a symbol as bits", qrproved_encode_bits(TEXT, sizeof TEXT - 1, 1, 0, 0, NONE, 0, bits, len, &other) == QRPROVED_DONE);
	want("the same symbol", !memcmp(&symbol, &other, sizeof symbol) && is_marked(bits, len, sizeof bits));
	for (k = 0; k < 8 * len; k++)
		want("a bit", (bits[k / 8] >> (7 - k % 8) & 1) == (k < (size_t)symbol.side * symbol.side ? modules[k] : 0));
	for (drawing = QRPROVED_ASCII; drawing <= QRPROVED_UTF8; drawing++) {
		want("a text", qrproved_draw(modules, sizeof modules, symbol.side, 1, drawing, 3, text, sizeof text, &written) == QRPROVED_DONE);
		for (row = 0, at = 0; (status = qrproved_draw_row(bits, len, symbol.side, drawing, 3, row, line, sizeof line, &line_len)) == QRPROVED_DONE; row++) {
			want("a line", line_len <= QRPROVED_ROW(drawing, symbol.side, 3) && at + line_len <= written && !memcmp(text + at, line, line_len));
			at += line_len;
		}
		want("all lines", status == QRPROVED_SETTINGS && at == written);
	}
	memset(line, MARK, sizeof line), line_len = 5;
	want("side 0 as a line", qrproved_draw_row(bits, len, 0, 0, 0, 0, line, sizeof line, &line_len) == QRPROVED_SETTINGS);
	want("side 256 + 21 as a line", qrproved_draw_row(bits, len, 277, 0, 0, 0, line, sizeof line, &line_len) == QRPROVED_SETTINGS);
	want("a line of SVG", qrproved_draw_row(bits, len, 21, QRPROVED_SVG, 0, 0, line, sizeof line, &line_len) == QRPROVED_SETTINGS);
	want("margin 101 of a line", qrproved_draw_row(bits, len, 21, 0, 101, 0, line, sizeof line, &line_len) == QRPROVED_SETTINGS);
	want("line 2^32 - 1", qrproved_draw_row(bits, len, 21, 0, 0, UINT32_MAX, line, sizeof line, &line_len) == QRPROVED_SETTINGS && line_len == 5);
	want("a byte of bits too few", qrproved_draw_row(bits, 55, 21, 0, 0, 0, line, sizeof line, &line_len) == QRPROVED_ROOM && line_len == 0);
	want("length of a line", qrproved_draw_row(bits, 56, 21, 0, 0, 0, NULL, 0, &line_len) == QRPROVED_ROOM && line_len == 43);
	want("a line too long by a byte", qrproved_draw_row(bits, 56, 21, 0, 0, 0, line, 42, &line_len) == QRPROVED_ROOM && line_len == 43);
	want("nothing of a line", is_marked(line, 0, sizeof line));
	want("a whole line", qrproved_draw_row(bits, 56, 21, 0, 0, 0, line, 43, &line_len) == QRPROVED_DONE && line_len == 43 && is_marked(line, 43, sizeof line));
}

/* Symbols and series that say what their input is, and symbols of a higher level than the one that was asked for. */
static void interpretations(void)
{
	static const uint8_t WORD[] = {0x47, 0x72, 0xC3, 0xBC, 0xC3, 0x9F, 0x65};          /* UTF-8 */
	static const uint8_t NO_DATA[] = "10A\x1D%";
	enum { UTF8 = QRPROVED_ECI_UTF8, GS1 = QRPROVED_INTERPRETATION_GS1, DATA_LEN = sizeof GS1_DATA - 1 };
	struct qrproved_symbol symbol;
	struct qrproved_series series;
	struct qrproved_content content;
	struct qrproved_eci ecis[2];
	memset(modules, MARK, sizeof modules), memset(&symbol, MARK, sizeof symbol), memset(&series, MARK, sizeof series);
	want("numbers of no interpretation", qrproved_encode(WORD, 7, 1, 0, 0, GS1 + 1, 0, modules, 441, &symbol) == QRPROVED_SETTINGS
	     && qrproved_encode_series(WORD, 7, 1, 0, 0, GS1 + 1, modules, 441, &series) == QRPROVED_SETTINGS
	     && qrproved_encode(WORD, 7, 1, 0, 0, 0xFFFFFFFF, 0, modules, 441, &symbol) == QRPROVED_SETTINGS);
	want("boost 2", qrproved_encode(WORD, 7, 1, 0, 0, UTF8, 2, modules, 441, &symbol) == QRPROVED_SETTINGS);
	want("kanji mode for UTF-8", qrproved_encode(WORD, 7, 1, 0, 2, UTF8, 0, modules, 441, &symbol) == QRPROVED_SETTINGS
	     && qrproved_encode_series(WORD, 7, 1, 0, 2, UTF8, modules, 441, &series) == QRPROVED_SETTINGS);
	want("no byte of GS1 data", qrproved_encode(NULL, 0, 1, 0, 0, GS1, 0, modules, 441, &symbol) == QRPROVED_EMPTY);
	want("no GS1 data", qrproved_encode(NO_DATA, 5, 1, 0, 0, GS1, 0, modules, 0, &symbol) == QRPROVED_FIELDS
	     && qrproved_encode_series(NO_DATA, 5, 1, 0, 0, GS1, modules, 0, &series) == QRPROVED_FIELDS);
	want("nothing is written of them", is_marked(modules, 0, sizeof modules) && is_marked(&symbol, 0, sizeof symbol) && is_marked(&series, 0, sizeof series));
	want("kanji mode for Shift JIS", qrproved_encode(WORD, 7, 1, 0, 2, 20, 0, modules, 441, &symbol) == QRPROVED_DONE);
	want("UTF-8", qrproved_encode(WORD, 7, 1, 0, 0, UTF8, 0, modules, 441, &symbol) == QRPROVED_DONE && symbol.version == 1 && symbol.level == 0);
	want("UTF-8 is read", qrproved_read(modules, 441, 21, bytes, sizeof bytes, ecis, 2, &content) == QRPROVED_DONE && content.len == 7
	     && !memcmp(bytes, WORD, 7) && content.eci_count == 1 && ecis[0].begin == 0 && ecis[0].number == 26 && content.fnc1 == QRPROVED_FNC1_NONE);
	/* 4 + 8 bits of the ECI header, and 4 + 8 + 7 * 8 of the bytes: 80 bits, of which level Q has 104, and level H 72 */
	want("UTF-8 with boost", qrproved_encode(WORD, 7, 1, 0, 0, UTF8, 1, modules, 441, &symbol) == QRPROVED_DONE && symbol.version == 1 && symbol.level == 2);
	want("the lowest level is the least", qrproved_encode(WORD, 7, 1, 3, 0, UTF8, 1, modules, 625, &symbol) == QRPROVED_DONE && symbol.version == 2
	     && symbol.level == 3);
	want("GS1 data are written", qrproved_encode(GS1_DATA, DATA_LEN, 1, 1, 0, GS1, 0, modules, sizeof modules, &symbol) == QRPROVED_DONE);
	want("GS1 data are read", qrproved_read(modules, sizeof modules, symbol.side, bytes, sizeof bytes, ecis, 2, &content) == QRPROVED_DONE
	     && content.len == DATA_LEN && !memcmp(bytes, GS1_DATA, DATA_LEN) && content.eci_count == 0 && content.fnc1 == QRPROVED_FNC1_FIRST);
	want("a series of GS1 data", qrproved_encode_series(GS1_DATA, DATA_LEN, 1, 2, 0, GS1, modules, sizeof modules, &series) == QRPROVED_DONE && series.count > 1);
	size_t joined = 0;
	for (unsigned k = 0; k < series.count; k++) {
		want("a part of GS1 data", qrproved_read(modules + 441 * k, 441, 21, bytes, sizeof bytes, ecis, 2, &content) == QRPROVED_DONE
		     && content.fnc1 == QRPROVED_FNC1_FIRST && content.position == k && joined + content.len <= DATA_LEN
		     && !memcmp(bytes, GS1_DATA + joined, content.len));
		joined += content.len;
	}
	want("all parts of GS1 data", joined == DATA_LEN);
}

/* The counts are those of Table 7 for 1-L and 40-L, and what a structured append header leaves of 152 bits. */
static void rooms(void)
{
	uint32_t count = MARK;
	want("digits", qrproved_room(1, 0, QRPROVED_MODE_NUMERIC, NONE, 0, &count) == QRPROVED_DONE && count == 41);
	want("alphanumeric characters", qrproved_room(40, 0, QRPROVED_MODE_ALPHANUMERIC, NONE, 0, &count) == QRPROVED_DONE && count == 4296);
	want("bytes of a series", qrproved_room(1, 0, QRPROVED_MODE_BYTE, NONE, 1, &count) == QRPROVED_DONE && count == 15);
	want("kanji", qrproved_room(40, 0, QRPROVED_MODE_KANJI, 20, 0, &count) == QRPROVED_DONE && count == 1816);
	count = MARK;
	want("kanji in UTF-8", qrproved_room(40, 0, QRPROVED_MODE_KANJI, QRPROVED_ECI_UTF8, 0, &count) == QRPROVED_SETTINGS && count == MARK);
	want("numbers above 255", qrproved_room(257, 0, 0, NONE, 0, &count) == QRPROVED_SETTINGS
	     && qrproved_room(1, 256, 0, NONE, 0, &count) == QRPROVED_SETTINGS && qrproved_room(1, 0, 256, NONE, 0, &count) == QRPROVED_SETTINGS
	     && qrproved_room(1, 0, 0, NONE, 256, &count) == QRPROVED_SETTINGS && count == MARK);
	want("2^32 - 1", qrproved_room(1, 0, 0, UINT32_MAX, 0, &count) == QRPROVED_SETTINGS && count == MARK);
}

/* A light picture, in which nothing is found, and numbers that are just in range or just out of it. */
static void edges_of_find(void)
{
	static uint8_t pixels[32768];
	static struct qrproved_found found[QRPROVED_FOUND_MAX + 1];
	size_t count = MARK;
	memset(pixels, 200, sizeof pixels), memset(modules, MARK, sizeof modules), memset(found, MARK, sizeof found);
	want("no width", qrproved_find(pixels, 100, 0, 10, 10, 0, modules, QRPROVED_SYMBOL_MAX, found, 1, &count) == QRPROVED_SETTINGS);
	want("no height", qrproved_find(pixels, 100, 10, 0, 10, 0, modules, QRPROVED_SYMBOL_MAX, found, 1, &count) == QRPROVED_SETTINGS);
	want("too wide", qrproved_find(pixels, 32768, 32768, 1, 32768, 0, modules, QRPROVED_SYMBOL_MAX, found, 1, &count) == QRPROVED_SETTINGS);
	want("too high", qrproved_find(pixels, 32768, 1, 32768, 1, 0, modules, QRPROVED_SYMBOL_MAX, found, 1, &count) == QRPROVED_SETTINGS);
	want("rows that overlap", qrproved_find(pixels, 100, 10, 10, 9, 0, modules, QRPROVED_SYMBOL_MAX, found, 1, &count) == QRPROVED_SETTINGS);
	want("unread 2", qrproved_find(pixels, 100, 10, 10, 10, 2, modules, QRPROVED_SYMBOL_MAX, found, 1, &count) == QRPROVED_SETTINGS);
	want("a pixel less", qrproved_find(pixels, 107, 10, 10, 11, 0, modules, QRPROVED_SYMBOL_MAX, found, 1, &count) == QRPROVED_ROOM);
	want("a module less", qrproved_find(pixels, 109, 10, 10, 11, 0, modules, 2 * QRPROVED_SYMBOL_MAX - 1, found, 2, &count) == QRPROVED_ROOM);
	want("nothing is changed", is_marked(modules, 0, sizeof modules) && is_marked(found, 0, sizeof found) && count == MARK);
	want("all pixels", qrproved_find(pixels, 109, 10, 10, 11, 0, modules, 2 * QRPROVED_SYMBOL_MAX, found, 2, &count) == QRPROVED_DONE && count == 0);
	want("no room for squares found", qrproved_find(pixels, 109, 10, 10, 11, 1, NULL, 0, NULL, 0, &count) == QRPROVED_DONE && count == 0);
	want("the widest picture", qrproved_find(pixels, 32767, 32767, 1, 32767, 1, modules, QRPROVED_SYMBOL_MAX, found, 1, &count) == QRPROVED_DONE && count == 0);
	want("no buffer is changed", is_marked(modules, 0, sizeof modules) && is_marked(found, 0, sizeof found));
}

static void edges_of_logo(void)
{
	struct qrproved_symbol symbol;
	uint8_t largest = MARK;
	memset(modules, MARK, sizeof modules), memset(&symbol, MARK, sizeof symbol);
	want("no input for a logo", qrproved_encode_logo(NULL, 0, 1, 0, 0, NONE, 3, 50, modules, sizeof modules, &symbol, &largest) == QRPROVED_EMPTY);
	want("a logo of 178 modules", qrproved_encode_logo(TEXT, 5, 1, 0, 0, NONE, 178, 50, modules, sizeof modules, &symbol, &largest) == QRPROVED_SETTINGS);
	want("a logo of 259 modules", qrproved_encode_logo(TEXT, 5, 1, 0, 0, NONE, 259, 50, modules, sizeof modules, &symbol, &largest) == QRPROVED_SETTINGS);
	want("a share of 76", qrproved_encode_logo(TEXT, 5, 1, 0, 0, NONE, 3, 76, modules, sizeof modules, &symbol, &largest) == QRPROVED_SETTINGS);
	want("a share of 256", qrproved_encode_logo(TEXT, 5, 1, 0, 0, NONE, 3, 256, modules, sizeof modules, &symbol, &largest) == QRPROVED_SETTINGS);
	want("version 257 for a logo", qrproved_encode_logo(TEXT, 5, 257, 0, 0, NONE, 3, 50, modules, sizeof modules, &symbol, &largest) == QRPROVED_SETTINGS);
	want("440 bytes for a logo", qrproved_encode_logo(TEXT, 5, 1, 0, 0, NONE, 3, 50, modules, 440, &symbol, &largest) == QRPROVED_ROOM);
	want("no largest logo", is_marked(modules, 0, sizeof modules) && is_marked(&symbol, 0, sizeof symbol) && largest == MARK);
	want("a logo of 177 modules", qrproved_encode_logo(TEXT, 5, 1, 0, 0, NONE, 177, 75, modules, sizeof modules, &symbol, &largest) == QRPROVED_LOGO && largest != MARK);
	want("nothing is written for it", is_marked(modules, 0, sizeof modules) && is_marked(&symbol, 0, sizeof symbol));
	largest = MARK;
	want("no room is needed for it", qrproved_encode_logo(TEXT, 5, 1, 0, 0, NONE, 177, 75, NULL, 0, &symbol, &largest) == QRPROVED_LOGO && largest != MARK);
	largest = MARK;
	want("441 bytes for a logo", qrproved_encode_logo(TEXT, 5, 1, 0, 0, NONE, 3, 50, modules, 441, &symbol, &largest) == QRPROVED_DONE);
	want("no more is written for a logo", symbol.side == 21 && largest == MARK && is_marked(modules, 441, sizeof modules));
}

static int edges(void)
{
	struct qrproved_symbol symbol;
	struct qrproved_series series;
	struct qrproved_content content;
	struct qrproved_mended mended;
	memset(modules, MARK, sizeof modules), memset(&symbol, MARK, sizeof symbol);
	want("no input", qrproved_encode(NULL, 0, 1, 0, 0, NONE, 0, modules, sizeof modules, &symbol) == QRPROVED_EMPTY);
	want("no buffer", qrproved_encode(TEXT, 5, 1, 0, 0, NONE, 0, NULL, 0, &symbol) == QRPROVED_ROOM);
	want("numbers of 255", qrproved_encode(TEXT, 5, 255, 255, 255, NONE, 0, modules, sizeof modules, &symbol) == QRPROVED_SETTINGS);
	want("440 bytes", qrproved_encode(TEXT, 5, 1, 0, 0, NONE, 0, modules, 440, &symbol) == QRPROVED_ROOM);
	want("nothing is written", is_marked(modules, 0, sizeof modules) && is_marked(&symbol, 0, sizeof symbol));
	want("441 bytes", qrproved_encode(TEXT, 5, 1, 0, 0, NONE, 0, modules, 441, &symbol) == QRPROVED_DONE);
	want("no more is written", symbol.side == 21 && is_marked(modules, 441, sizeof modules));
	memset(modules, MARK, sizeof modules);
	want("a long input", qrproved_encode(modules, 200000, 1, 0, 0, NONE, 0, modules + 200000, 31329, &symbol) == QRPROVED_TOO_LONG);
	want("a long series", qrproved_encode_series(modules, 200000, 40, 0, 0, NONE, modules + 200000, 31329, &series) == QRPROVED_TOO_MANY);
	want("a series of 2", qrproved_encode_series(TEXT, 8, 1, 3, 1, NONE, modules, 882, &series) == QRPROVED_DONE);
	want("no more is written for a series", series.count == 2 && series.side == 21 && is_marked(modules, 882, sizeof modules));
	want("no modules to redraw", qrproved_set_mask(NULL, 0, 21, 7) == QRPROVED_ROOM);
	want("440 modules to redraw", qrproved_set_mask(modules, 440, 21, 7) == QRPROVED_ROOM);
	want("mask 8", qrproved_set_mask(NULL, 0, 0, 8) == QRPROVED_SETTINGS);
	want("mask 2^32 - 1", qrproved_set_mask(modules, 441, 21, UINT32_MAX) == QRPROVED_SETTINGS);
	want("side 22 to redraw", qrproved_set_mask(modules, sizeof modules, 22, 0) == QRPROVED_SIDE);
	want("side 277 to redraw", qrproved_set_mask(modules, sizeof modules, 277, 0) == QRPROVED_SIDE);
	memset(bytes, MARK, sizeof bytes);
	want("no format information", qrproved_set_mask(bytes, 441, 21, 0) == QRPROVED_FORMAT && is_marked(bytes, 0, sizeof bytes));
	memset(bytes, MARK, sizeof bytes);
	want("no modules", qrproved_read(NULL, 0, 21, bytes, sizeof bytes, NULL, 0, &content) == QRPROVED_ROOM);
	want("no room", qrproved_read(modules, 441, 21, NULL, 0, NULL, 0, &content) == QRPROVED_ROOM);
	want("side 0", qrproved_read(NULL, 0, 0, NULL, 0, NULL, 0, &content) == QRPROVED_SIDE);
	want("a part", qrproved_read(modules + 441, 441, 21, bytes, 3, NULL, 0, &content) == QRPROVED_DONE);
	want("its bytes", content.len == 3 && !memcmp(bytes, TEXT + 5, 3) && is_marked(bytes, 3, sizeof bytes));
	want("its header", content.version == 1 && content.has_header == 1 && content.position == 1 && content.last == 1);
	memset(bytes, MARK, sizeof bytes), memset(&mended, MARK, sizeof mended);
	want("no modules to mend", qrproved_mend(NULL, 0, 21, bytes, sizeof bytes, NULL, 0, &mended) == QRPROVED_ROOM);
	want("no room to mend", qrproved_mend(modules, 441, 21, NULL, 0, NULL, 0, &mended) == QRPROVED_ROOM);
	want("side 255 to mend", qrproved_mend(NULL, 0, 255, NULL, 0, NULL, 0, &mended) == QRPROVED_SIDE);
	want("too few modules before another byte", qrproved_mend(modules + 882, 440, 21, bytes, 3, NULL, 0, &mended) == QRPROVED_ROOM);
	want("a byte of no module", qrproved_mend(modules + 442, 441, 21, bytes, 3, NULL, 0, &mended) == QRPROVED_SETTINGS);
	want("nothing is mended", is_marked(bytes, 0, sizeof bytes) && is_marked(&mended, 0, sizeof mended));
	want("a part to mend", qrproved_mend(modules + 441, 441, 21, bytes, 3, NULL, 0, &mended) == QRPROVED_DONE);
	want("its bytes, mended", mended.len == 3 && !memcmp(bytes, TEXT + 5, 3) && is_marked(bytes, 3, sizeof bytes));
	want("its header, mended", mended.version == 1 && mended.has_header == 1 && mended.position == 1 && mended.last == 1);
	want("it is sound", mended.wrong_modules == 0 && mended.wrong_format_modules == 0 && mended.changed_most == 0);
	want("its level", mended.level == QRPROVED_LEVEL_H && mended.mask < 8 && mended.changed_allowed == 8);
	modules[441 + 6 * 21 + 9] ^= 1;
	want("a timing module", qrproved_mend(modules + 441, 441, 21, bytes, 3, NULL, 0, &mended) == QRPROVED_DONE && mended.wrong_modules == 1);
	want("nothing else", mended.wrong_format_modules == 0 && mended.changed_most == 0);
	size_t written = 5;
	memset(bytes, MARK, sizeof bytes);
	want("no squares", qrproved_draw(NULL, 0, 21, 1, QRPROVED_ASCII, 0, bytes, sizeof bytes, &written) == QRPROVED_ROOM && written == 0);
	written = 5;
	want("17 squares", qrproved_draw(modules, 882, 1, 17, QRPROVED_ASCII, 0, bytes, sizeof bytes, &written) == QRPROVED_SETTINGS);
	want("margin 101", qrproved_draw(modules, 882, 21, 2, QRPROVED_SVG, 101, bytes, sizeof bytes, &written) == QRPROVED_SETTINGS);
	want("margin 2^32 - 1", qrproved_draw(modules, 882, 21, 2, QRPROVED_SVG, UINT32_MAX, bytes, sizeof bytes, &written) == QRPROVED_SETTINGS);
	want("side 256 + 21", qrproved_draw(modules, 882, 277, 1, QRPROVED_SVG, 0, bytes, sizeof bytes, &written) == QRPROVED_SETTINGS);
	want("drawing 4", qrproved_draw(modules, 882, 21, 2, 4, 0, bytes, sizeof bytes, &written) == QRPROVED_SETTINGS && written == 5);
	want("its length", qrproved_draw(modules, 882, 21, 2, QRPROVED_ASCII, 0, NULL, 0, &written) == QRPROVED_ROOM && written == 2 * 21 * 43);
	want("one byte too short", qrproved_draw(modules, 882, 21, 2, QRPROVED_ASCII, 0, bytes, 1805, &written) == QRPROVED_ROOM && written == 1806);
	want("nothing is drawn", is_marked(bytes, 0, sizeof bytes));
	want("two squares", qrproved_draw(modules, 882, 21, 2, QRPROVED_ASCII, 0, bytes, 1806, &written) == QRPROVED_DONE && written == 1806);
	want("no more is drawn", bytes[1805] == '\n' && is_marked(bytes, 1806, sizeof bytes));
	want("a single dark module", qrproved_draw((const uint8_t *)"\xC8", 1, 1, 1, QRPROVED_ASCII, 0, bytes, 3, &written) == QRPROVED_DONE && !memcmp(bytes, "##\n", 3));
	memset(bytes, MARK, sizeof bytes), written = 5;
	want("no modules for an image", qrproved_image(NULL, 0, 21, QRPROVED_PNG, 1, 0, 0, 0, 0, bytes, sizeof bytes, &written) == QRPROVED_ROOM && written == 0);
	written = 5;
	want("scale 0", qrproved_image(modules, 441, 21, QRPROVED_PBM, 0, 0, 0, 0, 0, bytes, sizeof bytes, &written) == QRPROVED_SETTINGS);
	want("scale 257", qrproved_image(modules, 441, 21, QRPROVED_PBM, 257, 0, 0, 0, 0, bytes, sizeof bytes, &written) == QRPROVED_SETTINGS);
	want("a format that is not known", qrproved_image(modules, 441, 21, 99, 1, 0, 0, 0, 0, bytes, sizeof bytes, &written) == QRPROVED_SETTINGS);
	want("2^31 pixels a metre", qrproved_image(modules, 441, 21, QRPROVED_PNG, 1, 0, 0x80000000, 0, 0, bytes, sizeof bytes, &written) == QRPROVED_SETTINGS);
	want("65,536 dots from the left", qrproved_image(modules, 441, 21, QRPROVED_PBM, 1, 0, 0, 65536, 0, bytes, sizeof bytes, &written) == QRPROVED_SETTINGS);
	want("32,001 dots from above", qrproved_image(modules, 441, 21, QRPROVED_PBM, 1, 0, 0, 0, 32001, bytes, sizeof bytes, &written) == QRPROVED_SETTINGS && written == 5);
	want("length of an image", qrproved_image(modules, 441, 21, QRPROVED_PBM, 1, 0, 0, 0, 0, NULL, 0, &written) == QRPROVED_ROOM && written == 9 + 3 * 21);
	want("an image too long by a byte", qrproved_image(modules, 441, 21, QRPROVED_PBM, 1, 0, 0, 0, 0, bytes, 71, &written) == QRPROVED_ROOM && written == 72);
	want("nothing of an image", is_marked(bytes, 0, sizeof bytes));
	want("an image", qrproved_image(modules, 441, 21, QRPROVED_PBM, 1, 0, 0, 0, 0, bytes, 72, &written) == QRPROVED_DONE && !memcmp(bytes, "P4\n21 21\n", 9));
	want("no more than an image", is_marked(bytes, 72, sizeof bytes));
	memset(bytes, MARK, sizeof bytes), written = 5;
	want("no modules for a PNG file", qrproved_png(NULL, 0, 21, 1, 0, 0, 0, UINT32_MAX, bytes, sizeof bytes, &written) == QRPROVED_ROOM && written == 0);
	written = 5;
	want("side 0 of a PNG file", qrproved_png(modules, 441, 0, 1, 0, 0, 0, UINT32_MAX, bytes, sizeof bytes, &written) == QRPROVED_SETTINGS);
	want("scale 101 of a PNG file", qrproved_png(modules, 441, 21, 101, 0, 0, 0, UINT32_MAX, bytes, sizeof bytes, &written) == QRPROVED_SETTINGS);
	want("margin 101 of a PNG file", qrproved_png(modules, 441, 21, 1, 101, 0, 0, UINT32_MAX, bytes, sizeof bytes, &written) == QRPROVED_SETTINGS);
	want("2^31 pixels a metre of a PNG file", qrproved_png(modules, 441, 21, 1, 0, 0x80000000, 0, UINT32_MAX, bytes, sizeof bytes, &written) == QRPROVED_SETTINGS && written == 5);
	want("length of a PNG file", qrproved_png(modules, 441, 21, 1, 0, 0, 0, UINT32_MAX, NULL, 0, &written) == QRPROVED_ROOM && written > 100);
	want("a PNG file too long by a byte", qrproved_png(modules, 441, 21, 1, 0, 0, 0, UINT32_MAX, bytes, written - 1, &written) == QRPROVED_ROOM);
	want("nothing of a PNG file", is_marked(bytes, 0, sizeof bytes));
	want("a PNG file", qrproved_png(modules, 441, 21, 1, 0, 0, 0, UINT32_MAX, bytes, written, &written) == QRPROVED_DONE && !memcmp(bytes, "\x89PNG", 4));
	want("no more than a PNG file", is_marked(bytes, written, sizeof bytes));
	memset(bytes, MARK, sizeof bytes);
	written = 5;
	memset(bytes, MARK, sizeof bytes);
	want("no squares for a document", qrproved_document(NULL, 0, 21, 1, QRPROVED_PDF, 0, 1, bytes, sizeof bytes, &written) == QRPROVED_ROOM && written == 0);
	written = 5;
	want("17 squares for a document", qrproved_document(modules, 882, 1, 17, QRPROVED_EPS, 0, 1, bytes, sizeof bytes, &written) == QRPROVED_SETTINGS);
	want("margin 101 of a document", qrproved_document(modules, 882, 21, 2, QRPROVED_EPS, 101, 1, bytes, sizeof bytes, &written) == QRPROVED_SETTINGS);
	want("format 3", qrproved_document(modules, 882, 21, 2, 3, 0, 1, bytes, sizeof bytes, &written) == QRPROVED_SETTINGS);
	want("format 2^32 - 1", qrproved_document(modules, 882, 21, 2, UINT32_MAX, 0, 1, bytes, sizeof bytes, &written) == QRPROVED_SETTINGS);
	want("0 micrometres", qrproved_document(modules, 882, 21, 2, QRPROVED_PDF, 0, 0, bytes, sizeof bytes, &written) == QRPROVED_SETTINGS);
	want("1,000,001 micrometres", qrproved_document(modules, 882, 21, 2, QRPROVED_PDF, 0, 1000001, bytes, sizeof bytes, &written) == QRPROVED_SETTINGS && written == 5);
	/* A single dark module of 25,400 micrometres, which is 72 points. */
	static const char EPS[] = "%!PS-Adobe-3.0 EPSF-3.0\n%%BoundingBox: 0 0 72 72\n%%HiResBoundingBox: 0 0 72.000000 72.000000\n"
		"%%LanguageLevel: 2\n%%EndComments\ngsave\n72.000000 dup scale\n1 setgray 0 0 1 1 rectfill\n0 setgray\n"
		"/b { 1 rectfill } bind def\n0 0 1 b\ngrestore\n%%EOF\n";
	const size_t eps_len = sizeof EPS - 1;
	want("its length as EPS", qrproved_document((const uint8_t *)"\xC8", 1, 1, 1, QRPROVED_EPS, 0, 25400, NULL, 0, &written) == QRPROVED_ROOM && written == eps_len);
	want("one byte too short for EPS", qrproved_document((const uint8_t *)"\xC8", 1, 1, 1, QRPROVED_EPS, 0, 25400, bytes, eps_len - 1, &written) == QRPROVED_ROOM && is_marked(bytes, 0, sizeof bytes));
	want("a module as EPS", qrproved_document((const uint8_t *)"\xC8", 1, 1, 1, QRPROVED_EPS, 0, 25400, bytes, eps_len, &written) == QRPROVED_DONE && !memcmp(bytes, EPS, eps_len));
	want("no more is written", written == eps_len && is_marked(bytes, eps_len, sizeof bytes));
	want("the widest module", qrproved_document((const uint8_t *)"\xC8", 1, 1, 1, QRPROVED_SVG_MM, 100, 1000000, bytes, sizeof bytes, &written) == QRPROVED_DONE);
	memset(bytes, MARK, sizeof bytes);
	written = 5;
	want("no squares for a PDF in colours", qrproved_pdf(NULL, 0, 21, 1, 0, 1, 0xFF, 0, bytes, sizeof bytes, &written) == QRPROVED_ROOM && written == 0);
	written = 5;
	want("17 squares for a PDF in colours", qrproved_pdf(modules, 882, 1, 17, 0, 1, 0xFF, 0, bytes, sizeof bytes, &written) == QRPROVED_SETTINGS);
	want("margin 101 of a PDF in colours", qrproved_pdf(modules, 882, 21, 2, 101, 1, 0xFF, 0, bytes, sizeof bytes, &written) == QRPROVED_SETTINGS);
	want("0 micrometres in colours", qrproved_pdf(modules, 882, 21, 2, 0, 0, 0xFF, 0, bytes, sizeof bytes, &written) == QRPROVED_SETTINGS);
	want("a dark colour that is not opaque", qrproved_pdf(modules, 882, 21, 2, 0, 1, 0xFE, 0, bytes, sizeof bytes, &written) == QRPROVED_SETTINGS);
	want("a light colour that is half opaque", qrproved_pdf(modules, 882, 21, 2, 0, 1, 0xFF, 0x80, bytes, sizeof bytes, &written) == QRPROVED_SETTINGS && written == 5);
	want("its length in colours", qrproved_pdf(modules, 882, 21, 2, 0, 1, 0xFF, 0, NULL, 0, &written) == QRPROVED_ROOM && written > 1000);
	struct qrproved_sheet paper = PAPER;
	memset(bytes, MARK, sizeof bytes);
	written = 5;
	want("no squares for labels", qrproved_sheets(NULL, 0, 21, 1, 0, 330, &PAPER, bytes, sizeof bytes, &written) == QRPROVED_ROOM && written == 0);
	written = 5;
	want("10,001 labels", qrproved_sheets(modules, 882, 1, 10001, 0, 330, &PAPER, bytes, sizeof bytes, &written) == QRPROVED_SETTINGS);
	want("margin 101 of a label", qrproved_sheets(modules, 882, 21, 1, 101, 1, &PAPER, bytes, sizeof bytes, &written) == QRPROVED_SETTINGS);
	want("a label of 0 micrometres", qrproved_sheets(modules, 882, 21, 1, 0, 0, &PAPER, bytes, sizeof bytes, &written) == QRPROVED_SETTINGS);
	want("a label of the paper's width", qrproved_sheets(modules, 882, 20, 1, 0, 500, &PAPER, NULL, 0, &written) == QRPROVED_ROOM && written != 0);
	written = 5;
	want("a label wider than the paper", qrproved_sheets(modules, 882, 20, 1, 0, 501, &PAPER, bytes, sizeof bytes, &written) == QRPROVED_SETTINGS);
	paper.columns = UINT32_MAX;
	want("2^32 - 1 columns", qrproved_sheets(modules, 882, 21, 1, 0, 330, &paper, bytes, sizeof bytes, &written) == QRPROVED_SETTINGS);
	paper.columns = 2, paper.across = UINT32_MAX;
	want("2^32 - 1 micrometres to the next label", qrproved_sheets(modules, 882, 21, 1, 0, 330, &paper, bytes, sizeof bytes, &written) == QRPROVED_SETTINGS);
	paper = PAPER, paper.first = 1;
	want("all places free", qrproved_sheets(modules, 882, 21, 1, 0, 330, &paper, bytes, sizeof bytes, &written) == QRPROVED_SETTINGS && written == 5);
	want("nothing of a label", is_marked(bytes, 0, sizeof bytes));
	struct qrproved_drawn drawn;
	static uint8_t text[2000], parsed[QRPROVED_SERIES_MAX];
	memset(parsed, MARK, sizeof parsed), memset(&drawn, MARK, sizeof drawn);
	want("no text", qrproved_parse_drawing(NULL, 0, parsed, sizeof parsed, &drawn) == QRPROVED_NO_DRAWING);
	want("two squares to parse", qrproved_draw(modules, 882, 21, 2, QRPROVED_ASCII, 0, text, sizeof text, &written) == QRPROVED_DONE && written == 1806);
	want("a byte less", qrproved_parse_drawing(text, 1805, parsed, sizeof parsed, &drawn) == QRPROVED_NO_DRAWING);
	want("a byte more", qrproved_parse_drawing(text, 1807, parsed, sizeof parsed, &drawn) == QRPROVED_NO_DRAWING);
	want("no room for squares", qrproved_parse_drawing(text, 1806, NULL, 0, &drawn) == QRPROVED_ROOM);
	want("881 bytes for squares", qrproved_parse_drawing(text, 1806, parsed, 881, &drawn) == QRPROVED_ROOM);
	want("nothing is parsed", is_marked(parsed, 0, sizeof parsed) && is_marked(&drawn, 0, sizeof drawn));
	want("two squares are parsed", qrproved_parse_drawing(text, 1806, parsed, 882, &drawn) == QRPROVED_DONE && !memcmp(parsed, modules, 882));
	want("what they are", drawn.drawing == QRPROVED_ASCII && drawn.margin == 0 && drawn.count == 2 && drawn.side == 21);
	want("no more is written for them", is_marked(parsed, 882, sizeof parsed));
	want("one of them", qrproved_parse_drawing(text, 903, parsed, 441, &drawn) == QRPROVED_DONE && drawn.count == 1);
	edges_of_find();
	edges_of_logo();
	want("numbers above 255", qrproved_encode(TEXT, 5, 257, 0, 0, NONE, 0, modules, 441, &symbol) == QRPROVED_SETTINGS
	     && qrproved_encode(TEXT, 5, 1, 256, 0, NONE, 0, modules, 441, &symbol) == QRPROVED_SETTINGS
	     && qrproved_encode(TEXT, 5, 1, 0, 256, NONE, 0, modules, 441, &symbol) == QRPROVED_SETTINGS
	     && qrproved_encode(TEXT, 5, 1, 0, 0, NONE, 256, modules, 441, &symbol) == QRPROVED_SETTINGS
	     && qrproved_read(modules, 441, 277, bytes, sizeof bytes, NULL, 0, &content) == QRPROVED_SIDE
	     && qrproved_mend(modules, 441, 277, bytes, sizeof bytes, NULL, 0, &mended) == QRPROVED_SIDE);
	rooms();
	two_ecis();
	fields();
	bits_and_lines();
	interpretations();
	want("the version", qrproved_version() == QRPROVED_VERSION_NUMBER);
	if (!wrong)
		puts("edges: as wanted");
	return wrong;
}

/* A sum over the symbols of some inputs, and of what is read of each; 0 for a fault. */
static uint64_t sum_of(int k)
{
	static _Thread_local uint8_t drawn[QRPROVED_SYMBOL_MAX], said[QRPROVED_BYTES_MAX];
	uint8_t input[300];
	uint64_t sum = 1;
	for (int call = 0; call < CALLS; call++) {
		struct qrproved_symbol symbol;
		struct qrproved_content content;
		size_t len = (size_t)(1 + (k * 37 + call * 7) % 299);
		for (size_t i = 0; i < len; i++)
			input[i] = (uint8_t)(k * 31 + call + (int)i * 7);
		if (qrproved_encode(input, len, (uint32_t)(1 + call % 12), (uint32_t)(call % 4), (uint32_t)(call % 3), NONE, 0, drawn, sizeof drawn, &symbol))
			return 0;
		if (qrproved_read(drawn, sizeof drawn, symbol.side, said, sizeof said, NULL, 0, &content) || content.len != len || memcmp(said, input, len))
			return 0;
		for (int i = 0; i < symbol.side * symbol.side; i++)
			sum = sum * 31 + drawn[i] + symbol.mask;
	}
	return sum;
}

static uint64_t got[THREADS];

static void *work(void *k)
{
	got[(size_t)k] = sum_of((int)(size_t)k);
	return NULL;
}

static int threads(void)
{
	pthread_t all[THREADS];
	int others = 0;
	for (size_t k = 0; k < THREADS; k++)
		if (pthread_create(&all[k], NULL, work, (void *)k))
			return 2;
	for (int k = 0; k < THREADS; k++)
		pthread_join(all[k], NULL);
	for (int k = 0; k < THREADS; k++)
		others += !got[k] || got[k] != sum_of(k);
	printf("threads: %d of %d differ\n", others, THREADS);
	return others;
}

int main(int argc, char **argv)
{
	const char *what = argc == 2 ? argv[1] : "";
	/* so that printing takes no memory */
	setvbuf(stdout, NULL, _IONBF, 0);
	if (!strcmp(what, "encode"))
		return encode();
	if (!strcmp(what, "encode_bits"))
		return encode_bits();
	if (!strcmp(what, "encode_logo"))
		return encode_logo();
	if (!strcmp(what, "encode_series"))
		return encode_series();
	if (!strcmp(what, "read"))
		return read_symbol();
	if (!strcmp(what, "mend"))
		return mend_symbol();
	if (!strcmp(what, "draw"))
		return draw();
	if (!strcmp(what, "document"))
		return document();
	if (!strcmp(what, "pdf"))
		return pdf();
	if (!strcmp(what, "sheets"))
		return sheets();
	if (!strcmp(what, "parse_drawing"))
		return parse_drawing();
	if (!strcmp(what, "find"))
		return find();
	if (!strcmp(what, "encode_eci"))
		return encode_as(what, TEXT, sizeof TEXT - 1, QRPROVED_ECI_UTF8);
	if (!strcmp(what, "encode_gs1"))
		return encode_as(what, GS1_DATA, sizeof GS1_DATA - 1, QRPROVED_INTERPRETATION_GS1);
	if (!strcmp(what, "encode_series_gs1"))
		return encode_series_gs1();
	if (!strcmp(what, "read_ecis"))
		return read_label(what, &TWO_ECIS);
	if (!strcmp(what, "read_gs1"))
		return read_label(what, &FIELDS);
	if (!strcmp(what, "mend_ecis"))
		return mend_ecis();
	if (!strcmp(what, "edges"))
		return edges();
	if (!strcmp(what, "threads"))
		return threads();
	return 2;
}
