/* Says whether the symbols of a drawing or of a picture are sound: qrencode ... | check, or check <label.pgm
 *
 * Reads a drawing from standard input: one of qrencode, of any type and of one symbol or of a series, as it was written or after
 * pasting changed its line ends, spaces at the ends of lines and indentation, or put empty lines between symbols. qrproved_parse_drawing
 * then says what it shows. A drawing that is damaged is looked at otherwise: one symbol in ASCII, two characters a module, '##' for a
 * dark one, two spaces for a light one, and two question marks for one that is not known, with any margin. The first and the last row
 * and column of the symbol each need a dark module, and the margin none.
 * Standard input may also be a picture: a PGM file with a byte for each pixel (P5), or, if check was compiled with -DWITH_PNG and -lpng,
 * a PNG file. Then qrproved_find says which symbols it shows.
 * Prints a line for each symbol, and another if the drawing is damaged but can be read; ends with the greatest status of a symbol:
 *
 *   0  sound                                     each module is that of the symbol
 *   1  readable, 40 % of its correction spent    some modules are wrong or not known, but scanners can read it
 *   2  read here, but scanners will not: ...     and why: 130 % of its correction spent, or its format information is damaged too much
 *   2  not readable: ...                         and why
 *
 * Symbols with ECI headers and FNC1 have further lines: 'ECI 26 from byte 0 on', 'GS1 data', 'data of the application 37'.
 *
 * The share that is spent is that of a scanner, which takes each module that is not known as wrong. It is counted in the block with the
 * most codewords that are wrong or have a module that is not known. It is 0 % if only modules outside the codewords are damaged:
 * function patterns, format and version information, remainder bits. It is 100 % if a scanner can mend no more. The library mends
 * twice as many codewords if it is told which ones have modules that are not known, so it can read symbols beyond 100 %. */
#include "qrproved.h"
#include <stdio.h>
#include <string.h>
#ifdef WITH_PNG
#include <png.h>
#endif

enum { SOUND, READABLE, NO_SCANNER, NOT_READABLE };
enum { LIGHT, DARK, UNKNOWN };
enum empty_lines { KEPT, IN_SQUARES, LEFT_OUT };
enum { LINES_MAX = 512, TEXT_MAX = 10000000 };

/* The modules of a drawing, and the first and the last row and column with a dark one. */
struct drawing {
	uint8_t modules[LINES_MAX][LINES_MAX];
	int top, bottom, left, right;
};

static struct drawing drawing;
static uint8_t text[TEXT_MAX], lines[TEXT_MAX], modules[QRPROVED_SERIES_MAX], bytes[QRPROVED_BYTES_MAX];
static struct qrproved_eci ecis[QRPROVED_ECIS_MAX];
static size_t text_len;

static int not_readable(const char *reason)
{
	printf("not readable: %s\n", reason);
	return NOT_READABLE;
}

static int least(int a, int b)
{
	return a < b ? a : b;
}

static int most(int a, int b)
{
	return a > b ? a : b;
}

/* Takes a line of the drawing; 0 if it is no such line. Spaces at its end may be missing. */
static int take_line(const uint8_t *line, int len, int row)
{
	if (row >= LINES_MAX || len > 2 * LINES_MAX)
		return 0;
	for (int col = 0; 2 * col < len; col++) {
		uint8_t first = line[2 * col], second = 2 * col + 1 < len ? line[2 * col + 1] : ' ';
		if (first != second || (first != '#' && first != ' ' && first != '?'))
			return 0;
		drawing.modules[row][col] = first == '?' ? UNKNOWN : first == '#' ? DARK : LIGHT;
		if (first != '#')
			continue;
		drawing.top = least(drawing.top, row), drawing.bottom = most(drawing.bottom, row);
		drawing.left = least(drawing.left, col), drawing.right = most(drawing.right, col);
	}
	return 1;
}

/* The number of bytes from a place of the text on that are before the end of the line. */
static size_t line_len(size_t from)
{
	const uint8_t *end = memchr(text + from, '\n', text_len - from);
	return end ? (size_t)(end - text) - from : text_len - from;
}

/* Takes the text as a damaged drawing; 0 if it is no drawing in ASCII. */
static int take_drawing(void)
{
	int row = 0;
	drawing.top = drawing.left = LINES_MAX;
	drawing.bottom = drawing.right = -1;
	for (size_t from = 0; from < text_len; from += line_len(from) + 1)
		if (line_len(from) > TEXT_MAX / 2 || !take_line(text + from, (int)line_len(from), row++))
			return 0;
	return 1;
}

/* The side of the square from the first to the last dark module, whose modules it copies; 0 if there is no such square. */
static int copy_square(void)
{
	int side = drawing.bottom - drawing.top + 1;
	if (side < 1 || side > QRPROVED_SIDE_MAX || side != drawing.right - drawing.left + 1)
		return 0;
	for (int row = 0; row < side; row++)
		memcpy(modules + row * side, drawing.modules[drawing.top + row] + drawing.left, (size_t)side);
	return side;
}

/* Takes away what programs add to a text that is pasted, in place: a byte order mark, line ends of two bytes, no-break spaces. */
static void clean(void)
{
	size_t len = 0;
	for (size_t i = 0; i < text_len; i++) {
		if (text_len - i >= 3 && !memcmp(text + i, "\xEF\xBB\xBF", 3))
			i += 2;
		else if (text_len - i >= 2 && !memcmp(text + i, "\xC2\xA0", 2))
			text[len++] = ' ', i += 1;
		else if (text[i] != '\r' || i + 1 == text_len || text[i + 1] != '\n')
			text[len++] = text[i];
	}
	if (len > 0 && len < TEXT_MAX && text[len - 1] != '\n')
		text[len++] = '\n';
	text_len = len;
}

/* The length of a line without the spaces at its end. */
static size_t filled_len(size_t from)
{
	size_t len = line_len(from);
	while (len > 0 && text[from + len - 1] == ' ')
		len--;
	return len;
}

/* The number of characters, of which each has one byte that is no later byte of a character in UTF-8. */
static size_t characters(size_t from, size_t len)
{
	size_t count = 0;
	for (size_t i = 0; i < len; i++)
		count += (text[from + i] & 0xC0) != 0x80;
	return count;
}

/* Copies the lines from the first to the last that is not empty, without their indentation, and with spaces up to one width. Other
 * empty lines are copied if `empty` says so: one may be a row of light modules. Of the squares in ASCII, a line is high and two
 * characters are wide for each module. Returns the length. */
static size_t copy_lines(enum empty_lines empty)
{
	size_t indent = TEXT_MAX, width = 0, first = text_len, end = 0, len = 0, of_square = 0;
	for (size_t from = 0; from < text_len; from += line_len(from) + 1) {
		size_t filled = filled_len(from), spaces = strspn((const char *)text + from, " ");
		if (filled == 0)
			continue;
		first = from < first ? from : first, end = from + filled;
		indent = spaces < indent ? spaces : indent;
		width = characters(from, filled) > width ? characters(from, filled) : width;
	}
	for (size_t from = first; from < end; from += line_len(from) + 1) {
		size_t filled = filled_len(from), start = filled > 0 ? indent : 0;
		if (filled == 0 && (empty == LEFT_OUT || (empty == IN_SQUARES && of_square == 0)))
			continue;
		of_square = (of_square > 0 ? of_square : (width - indent) / 2) - 1;
		size_t spaces = filled > 0 ? width - characters(from, filled) : width - indent;
		if (filled - start + spaces + 1 > sizeof lines - len)
			return 0;
		memcpy(lines + len, text + from + start, filled - start);
		memset(lines + len + filled - start, ' ', spaces);
		len += filled - start + spaces;
		lines[len++] = '\n';
	}
	return len;
}

/* Prints how the bytes of a symbol are to be interpreted: a line for each ECI header, and one for FNC1. */
static void tell_interpretation(const struct qrproved_mended *mended)
{
	for (size_t k = 0; k < mended->eci_count; k++)
		printf("ECI %u from byte %zu on\n", (unsigned)ecis[k].number, ecis[k].begin);
	if (mended->fnc1 == QRPROVED_FNC1_FIRST)
		puts("GS1 data");
	else if (mended->fnc1 == QRPROVED_FNC1_SECOND && mended->application < 100)
		printf("data of the application %02d\n", mended->application);
	else if (mended->fnc1 == QRPROVED_FNC1_SECOND)
		printf("data of the application %c\n", mended->application - 100);
}

/* Prints how damaged a symbol is, and returns the status. The share that is spent is rounded up. */
static int tell_damage(const struct qrproved_mended *mended)
{
	int wrong = mended->worst_misread + mended->worst_unknown, allowed = mended->changed_allowed;
	int share = (100 * wrong + allowed - 1) / allowed;
	if (mended->wrong_modules == 0) {
		puts("sound");
		return SOUND;
	}
	if (wrong > allowed) {
		printf("read here, but scanners will not: %d %% of its correction spent\n", share);
		return NO_SCANNER;
	}
	if (mended->wrong_format_least > QRPROVED_WRONG_FORMAT_MAX) {
		puts("read here, but scanners will not: its format information is damaged too much");
		return NO_SCANNER;
	}
	printf("readable, %d %% of its correction spent\n", share);
	return READABLE;
}

/* Prints the lines of the square that `modules` begins with, and returns the status. */
static int judge(const uint8_t *modules, int side)
{
	struct qrproved_mended mended;
	switch (qrproved_mend(modules, (size_t)(side * side), (uint32_t)side, bytes, sizeof bytes, ecis, QRPROVED_ECIS_MAX, &mended)) {
	case QRPROVED_DONE: break;
	case QRPROVED_SIDE: return not_readable("there is no square of a symbol");
	case QRPROVED_FORMAT: return not_readable("the format information is lost");
	case QRPROVED_CHECK: return not_readable("some block has more damage than can be mended");
	case QRPROVED_SEGMENTS: return not_readable("what it says cannot be parsed");
	case QRPROVED_MEMORY: return not_readable("out of memory");
	default: return not_readable("not checked");
	}
	int status = tell_damage(&mended);
	tell_interpretation(&mended);
	return status;
}

/* Judges each square of the text, if it is exactly a drawing; else returns -1. */
static int judge_drawing(const uint8_t *from, size_t len)
{
	struct qrproved_drawn drawn;
	int status = SOUND;
	if (qrproved_parse_drawing(from, len, modules, sizeof modules, &drawn) != QRPROVED_DONE)
		return -1;
	for (int k = 0; k < drawn.count; k++)
		status = most(status, judge(modules + k * drawn.side * drawn.side, drawn.side));
	return status;
}

/* Judges what a damaged drawing shows. */
static int judge_damaged(void)
{
	if (!take_drawing())
		return not_readable("the drawing is none of qrencode, and not of '##', '?\?' and two spaces");
	int status = judge(modules, copy_square());
	if (status != NOT_READABLE)
		puts("the drawing is damaged, or another program drew it");
	return status;
}

/* Judges what a drawing shows. */
static int judge_text(void)
{
	clean();
	int status = judge_drawing(text, text_len);
	for (int empty = KEPT; status < 0 && empty <= LEFT_OUT; empty++)
		status = judge_drawing(lines, copy_lines((enum empty_lines)empty));
	return status < 0 ? judge_damaged() : status;
}

/* Judges each symbol of a picture in grey, with a byte for each pixel. */
static int judge_picture(const uint8_t *pixels, size_t len, uint32_t width, uint32_t height)
{
	static uint8_t squares[QRPROVED_FOUND_MAX * QRPROVED_SYMBOL_MAX];
	static struct qrproved_found found[QRPROVED_FOUND_MAX];
	size_t count;
	int status = SOUND;
	switch (qrproved_find(pixels, len, width, height, width, 1, squares, sizeof squares, found, QRPROVED_FOUND_MAX, &count)) {
	case QRPROVED_DONE: break;
	case QRPROVED_SETTINGS: return not_readable("the picture is too large");
	case QRPROVED_ROOM: return not_readable("the picture is cut");
	default: return not_readable("out of memory");
	}
	if (count == 0)
		return not_readable("the picture shows no symbol");
	for (size_t k = 0; k < count; k++)
		status = most(status, judge(squares + k * QRPROVED_SYMBOL_MAX, (int)found[k].side));
	return status;
}

/* The next number in the head of a PGM file, before which comments may stand, and the place after it; 0 if there is none. */
static uint32_t next_number(size_t *at)
{
	uint32_t number = 0;
	while (*at < text_len && strchr(" \t\r\n#", text[*at]))
		*at += text[*at] == '#' ? line_len(*at) : 1;
	while (*at < text_len && text[*at] >= '0' && text[*at] <= '9' && number < 100000)
		number = 10 * number + (uint32_t)(text[(*at)++] - '0');
	return number;
}

/* Judges a PGM file. */
static int judge_pgm(void)
{
	size_t at = 2;
	uint32_t width = next_number(&at), height = next_number(&at), white = next_number(&at);
	if (width == 0 || height == 0 || white == 0 || white > 255 || at >= text_len)
		return not_readable("the picture is no PGM file with a byte for each pixel");
	for (size_t k = ++at; k < text_len; k++)
		text[k] = (uint8_t)(text[k] < white ? text[k] * 255 / white : 255);
	return judge_picture(text + at, text_len - at, width, height);
}

/* Judges a PNG file. */
static int judge_png(void)
{
#ifdef WITH_PNG
	static const png_color white = { 255, 255, 255 };
	png_image png = { .version = PNG_IMAGE_VERSION };
	if (!png_image_begin_read_from_memory(&png, text, text_len))
		return not_readable("libpng does not read the picture");
	png.format = PNG_FORMAT_GRAY;
	if (PNG_IMAGE_SIZE(png) > sizeof lines)
		return not_readable("the picture is too large");
	if (!png_image_finish_read(&png, &white, lines, 0, NULL))
		return not_readable("libpng does not read the picture");
	return judge_picture(lines, PNG_IMAGE_SIZE(png), png.width, png.height);
#else
	return not_readable("a PNG file: compile check with -DWITH_PNG and -lpng");
#endif
}

int main(void)
{
	text_len = fread(text, 1, sizeof text - 1, stdin);
	int is_pgm = text_len > 2 && !memcmp(text, "P5", 2) && strchr(" \t\r\n", text[2]);
	int is_png = text_len > 8 && !memcmp(text, "\x89PNG\r\n\x1A\n", 8);
	int status = is_pgm ? judge_pgm() : is_png ? judge_png() : judge_text();
	int is_done = fflush(stdout) == 0 && !ferror(stdin) && !ferror(stdout);
	return is_done ? least(status, 2) : 2;
}
