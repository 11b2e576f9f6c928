/* Makes calls of the library in threads with the smallest stack that glibc gives, for tests/library: small_stack WHAT
 *
 * WHAT is the name of one call, or `all`. One call is then the first of the process, in which the loader also looks up
 * the names that the call uses. Standard input has the modules that it reads, mends or draws, or the drawing that it
 * parses. `all` makes every call in all versions, levels and rules. It reads and mends sound and damaged symbols, up to
 * damage that is refused. It encodes and reads with an ECI, with GS1 data and with boost. It also reads and mends
 * symbols of other programs that have ECI headers or GS1 data. If the stack of a thread is too small, a signal ends the
 * process. */
#include "labels.h"
#include "qrproved.h"
#include <pthread.h>
#include <stdio.h>
#include <stdlib.h>
#include <string.h>

enum { STACK = 16384, VERSIONS = 40, LEVELS = 4, RULES = 3, DRAWINGS = 4, FORMATS = 5 };

/* Digits, capitals, small letters and characters of kanji mode in turn, and the character that separates fields of GS1 data. */
static const char MIXED[] = "31415926aeiouaAEIOU$%\x93\x5f\xe4\xaa\x1d";

/* What the calls take and write. Nothing of it is on the stack. */
static uint8_t input[QRPROVED_BYTES_MAX * 4], bytes_of_logo[QRPROVED_SYMBOL_MAX], modules[QRPROVED_SERIES_MAX], bytes[QRPROVED_BYTES_MAX], text[10000000];
static size_t input_len, written;
static uint32_t version, level, rule, interpretation = QRPROVED_INTERPRETATION_DEFAULT, boost, side, count, drawing, format, most;
static struct qrproved_symbol symbol;
static struct qrproved_series series;
static struct qrproved_eci ecis[QRPROVED_ECIS_MAX];
static struct qrproved_content content;
static struct qrproved_mended mended;
static struct qrproved_drawn drawn;
static uint8_t status;
static unsigned calls;

static void *encode(void *none)
{
	status = qrproved_encode(input, input_len, version, level, rule, interpretation, boost, modules, sizeof modules, &symbol);
	return none;
}

static void *encode_bits(void *none)
{
	status = qrproved_encode_bits(input, input_len, version, level, rule, interpretation, boost, bytes, sizeof bytes, &symbol);
	return none;
}

static void *encode_logo(void *none)
{
	uint8_t largest;
	status = qrproved_encode_logo(input, input_len, 1, 0, rule, interpretation, version / 4, 50, bytes_of_logo, sizeof bytes_of_logo, &symbol, &largest);
	return none;
}

static void *encode_series(void *none)
{
	status = qrproved_encode_series(input, input_len, version, level, rule, interpretation, modules, sizeof modules, &series);
	return none;
}

static void *set_mask(void *none)
{
	status = qrproved_set_mask(modules, (size_t)side * side, side, level);
	return none;
}

static void *read_symbol(void *none)
{
	status = qrproved_read(modules, (size_t)side * side, side, bytes, sizeof bytes, ecis, QRPROVED_ECIS_MAX, &content);
	return none;
}

static void *mend(void *none)
{
	status = qrproved_mend(modules, (size_t)side * side, side, bytes, sizeof bytes, ecis, QRPROVED_ECIS_MAX, &mended);
	return none;
}

static void *draw(void *none)
{
	status = qrproved_draw(modules, (size_t)side * side * count, side, count, drawing, 4, text, sizeof text, &written);
	return none;
}

static void *draw_row(void *none)
{
	static uint8_t line[QRPROVED_ROW(QRPROVED_UTF8, 177, 4)];
	size_t length;
	status = qrproved_draw_row(modules, sizeof modules, side, drawing % 3, 4, 9, line, sizeof line, &length);
	return none;
}

static void *image(void *none)
{
	static uint8_t file[150000];
	size_t length;
	status = qrproved_image(modules, (size_t)side * side, side, format, 4, 4, 11811, 10, 20, file, sizeof file, &length);
	return none;
}

static void *png(void *none)
{
	static uint8_t file[150000];
	size_t length;
	status = qrproved_png(modules, (size_t)side * side, side, 4, 4, 11811, 0x102030FF, 0, file, sizeof file, &length);
	return none;
}

static void *document(void *none)
{
	status = qrproved_document(modules, (size_t)side * side * count, side, count, drawing % 3, 4, 330, text, sizeof text, &written);
	return none;
}

static void *pdf(void *none)
{
	status = qrproved_pdf(modules, (size_t)side * side * count, side, count, 4, 330, 0x102030FF, 0xFFFFFFFF, text, sizeof text, &written);
	return none;
}

/* A paper with one label, which is as wide as a symbol of version 40 with its margin at most. */
static void *sheets(void *none)
{
	static const struct qrproved_sheet PAPER = {100000, 100000, 0, 0, 0, 0, 1, 1, 0};
	status = qrproved_sheets(modules, (size_t)side * side * count, side, count, 4, 330, &PAPER, text, sizeof text, &written);
	return none;
}

static void *parse_drawing(void *none)
{
	static uint8_t shown[QRPROVED_SERIES_MAX];
	status = qrproved_parse_drawing(text, written, shown, sizeof shown, &drawn);
	return none;
}

/* Finds the symbol in a picture that is twice as large, turned by a seventh, and has a grey pixel, so that it is no clean picture. */
static void *find(void *none)
{
	enum { PIXELS = 450 };
	static uint8_t pixels[PIXELS * PIXELS], shown[QRPROVED_SYMBOL_MAX];
	static struct qrproved_found found;
	size_t found_count;
	int last = (int)side - 1;
	for (int y = 0; y < PIXELS; y++)
		for (int x = 0; x < PIXELS; x++) {
			int column = ((x - PIXELS / 2) * 7 + (y - PIXELS / 2)) + 7 * (int)side, row = ((y - PIXELS / 2) * 7 - (x - PIXELS / 2)) + 7 * (int)side;
			int is_inside = row >= 0 && column >= 0 && row / 14 <= last && column / 14 <= last;
			pixels[y * PIXELS + x] = is_inside && modules[row / 14 * (int)side + column / 14] ? 0 : x + y ? 255 : 128;
		}
	status = qrproved_find(pixels, sizeof pixels, PIXELS, PIXELS, PIXELS, 1, shown, sizeof shown, &found, 1, &found_count);
	return none;
}

static void *room(void *none)
{
	status = qrproved_room(version, level, QRPROVED_MODE_ALPHANUMERIC, interpretation, 1, &most);
	return none;
}

/* Makes a call in a thread of its own, and returns its status. */
static uint8_t in_small_stack(void *(*call)(void *))
{
	pthread_attr_t how;
	pthread_t thread;
	if (pthread_attr_init(&how) || pthread_attr_setstacksize(&how, STACK) || pthread_create(&thread, &how, call, NULL)) {
		puts("no thread");
		exit(2);
	}
	pthread_join(thread, NULL);
	pthread_attr_destroy(&how);
	calls += 1;
	return status;
}

static void want(const char *name, uint8_t got, uint8_t wanted)
{
	if (got != wanted) {
		printf("%s, version %u, level %u, rule %u, interpretation %u, boost %u: status %u, and not %u\n", name, version, level, rule,
		       interpretation, boost, got, wanted);
		exit(1);
	}
}

/* Encodes the longest input that fits the version, and looks for its length by halves. */
static void encode_longest(void)
{
	size_t fits = 0, too_long = QRPROVED_BYTES_MAX + 1;
	while (too_long - fits > 1) {
		input_len = fits + (too_long - fits) / 2;
		if (in_small_stack(encode) == QRPROVED_DONE && symbol.version == version)
			fits = input_len;
		else
			too_long = input_len;
	}
	input_len = fits;
	want("encode", in_small_stack(encode), QRPROVED_DONE);
	side = symbol.side;
}

/* Mends the symbol as it is, and then with twice as many modules inverted, or not known, each time, until it is refused. */
static void mend_until_refused(int is_known)
{
	static uint8_t sound[QRPROVED_SYMBOL_MAX];
	memcpy(sound, modules, sizeof sound);
	want("mend", in_small_stack(mend), QRPROVED_DONE);
	for (unsigned damaged = 1; status == QRPROVED_DONE; damaged *= 2) {
		memcpy(modules, sound, sizeof sound);
		for (unsigned i = 0; i < damaged; i++) {
			size_t place = (size_t)rand() % ((size_t)side * side);
			modules[place] = is_known ? !modules[place] : 2;
		}
		in_small_stack(mend);
	}
	memcpy(modules, sound, sizeof sound);
}

/* Reads and mends a symbol of another program, with its interpretation. */
static void interpret(const struct label *label)
{
	version = (label->side - 17) / 4, side = label->side;
	put_label(label, modules);
	want("read a label", in_small_stack(read_symbol), QRPROVED_DONE);
	mend_until_refused(1);
	mend_until_refused(0);
}

/* Encodes the longest input with each kind of interpretation, also with boost, reads it, and encodes a series. */
static void encode_interpreted(void)
{
	const uint32_t kinds[] = {rule == QRPROVED_RULE_WITH_KANJI ? 20 : QRPROVED_ECI_UTF8, QRPROVED_INTERPRETATION_GS1};
	for (size_t i = 0; i < sizeof kinds / sizeof *kinds; i++) {
		interpretation = kinds[i];
		encode_longest();
		want("read", in_small_stack(read_symbol), QRPROVED_DONE);
		want("room", in_small_stack(room), QRPROVED_DONE);
		boost = 1;
		want("encode", in_small_stack(encode), QRPROVED_DONE);
		boost = 0, input_len *= 3;
		want("encode_series", in_small_stack(encode_series), QRPROVED_DONE);
	}
	interpretation = QRPROVED_INTERPRETATION_DEFAULT;
}

static void all(void)
{
	interpret(&TWO_ECIS);
	interpret(&FIELDS);
	for (version = 1; version <= VERSIONS; version++)
		for (level = 0; level < LEVELS; level++)
			for (rule = 0; rule < RULES; rule++) {
				encode_interpreted();
				encode_longest();
				if (rule == QRPROVED_RULE_AUTO && version % 8 == 1)
					want("find", in_small_stack(find), QRPROVED_DONE);
				want("encode_bits", in_small_stack(encode_bits), QRPROVED_DONE);
				if (level == 3 && version < 30)
					want("encode_logo", in_small_stack(encode_logo), QRPROVED_DONE);
				want("set_mask", in_small_stack(set_mask), QRPROVED_DONE);
				want("read", in_small_stack(read_symbol), QRPROVED_DONE);
				mend_until_refused(1);
				mend_until_refused(0);
				for (drawing = 0, count = 1; drawing < DRAWINGS; drawing++) {
					want("document", in_small_stack(document), QRPROVED_DONE);
					want("pdf", in_small_stack(pdf), QRPROVED_DONE);
					want("sheets", in_small_stack(sheets), QRPROVED_DONE);
					want("draw", in_small_stack(draw), QRPROVED_DONE);
					want("draw_row", in_small_stack(draw_row), QRPROVED_DONE);
					want("parse", in_small_stack(parse_drawing), QRPROVED_DONE);
				}
				for (format = 0; format < FORMATS; format++)
					want("image", in_small_stack(image), QRPROVED_DONE);
				want("png", in_small_stack(png), QRPROVED_DONE);
				input_len *= 3;
				want("encode_series", in_small_stack(encode_series), QRPROVED_DONE);
				count = series.count;
				for (drawing = 0; drawing < DRAWINGS; drawing++) {
					want("document of a series", in_small_stack(document), QRPROVED_DONE);
					want("draw a series", in_small_stack(draw), QRPROVED_DONE);
					want("parse a series", in_small_stack(parse_drawing), QRPROVED_DONE);
				}
			}
}

static int once(const char *name)
{
	static const struct { const char *name; void *(*call)(void *); } CALLS[] = {
		{"encode", encode}, {"encode_bits", encode_bits}, {"encode_logo", encode_logo},
		{"encode_series", encode_series}, {"set_mask", set_mask}, {"read", read_symbol}, {"mend", mend},
		{"draw", draw}, {"draw_row", draw_row}, {"document", document}, {"pdf", pdf}, {"sheets", sheets}, {"image", image}, {"png", png},
		{"parse_drawing", parse_drawing}, {"find", find}, {"room", room}};
	written = fread(text, 1, sizeof text, stdin);
	memcpy(modules, text, written < sizeof modules ? written : sizeof modules);
	while (side * side < written)
		side++;
	version = 40, count = 1, drawing = QRPROVED_SVG, input_len = 2000;
	for (size_t i = 0; i < sizeof CALLS / sizeof *CALLS; i++)
		if (!strcmp(name, CALLS[i].name)) {
			want(name, in_small_stack(CALLS[i].call), QRPROVED_DONE);
			return 1;
		}
	return 0;
}

int main(int argc, char **argv)
{
	const char *what = argc == 2 ? argv[1] : "";
	for (size_t i = 0; i < sizeof input; i++)
		input[i] = (uint8_t)MIXED[i % (sizeof MIXED - 1)];
	if (!strcmp(what, "all"))
		all();
	else if (!once(what))
		return 2;
	printf("%s: %u calls\n", what, calls);
	return 0;
}
