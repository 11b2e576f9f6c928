/* Makes the calls with memory of the caller, for tests/c: library_memory WHAT
 *
 * WHAT is `enough` or `least`. Both make symbols of some versions in all levels, rules and interpretations, of the longest inputs of
 * many kinds that fit. Standard input has symbols with as many ECI headers as fit, each as its side and its modules. All are read and
 * mended, drawn under another mask and in each type, written in each format of documents, and parsed, and series are made. Some are found in pictures.
 *
 * `enough` makes each call with exactly as much memory as its macro says, at an odd address, and looks for the least memory with which
 * it succeeds. The macro has to be above that by a tenth. With less, down to none, the call has to return MEMORY and to change nothing
 * else. `least` prints for each version the most that such a call takes, and for the other calls the most in hundredths of the macro. */
#define QRPROVED_CALLER_MEMORY
#include "qrproved.h"
#include <stdio.h>
#include <stdlib.h>
#include <string.h>

enum { MARK = 7, MEMORY_MAX = 16000000, TEXT_MAX = 8000000, LEVELS = 4, RULES = 3, DRAWINGS = 4, VERSIONS = 40, KINDS = 12, SHORTER = 12, PIXELS_MAX = 400 };
enum call { ENCODE, BITS, LOGO, SERIES, MASK, READ, MEND, DRAW, DOCUMENT, COLOURED, SHEETS, PARSE, FIND, CALLS };

static const char *const NAMES[CALLS] = {"encode", "encode_bits", "encode_logo", "encode_series", "set_mask", "read", "mend", "draw", "document", "pdf", "sheets", "parse_drawing", "find"};
static const uint32_t INTERPRETATIONS[] = {QRPROVED_INTERPRETATION_DEFAULT, 999999, QRPROVED_INTERPRETATION_GS1};

/* Paper with one label on each sheet. */
static const struct qrproved_sheet PAPER = {100000, 100000, 0, 0, 0, 0, 1, 1, 0};

static uint8_t memory[MEMORY_MAX + 1], input[QRPROVED_BYTES_MAX * 17], modules[QRPROVED_SERIES_MAX], damaged[QRPROVED_SYMBOL_MAX], masked[QRPROVED_SYMBOL_MAX];
static uint8_t out[TEXT_MAX], text[TEXT_MAX], kept[TEXT_MAX], pixels[PIXELS_MAX * PIXELS_MAX];
static size_t input_len, text_len, most[CALLS][VERSIONS + 1];
static uint32_t version, level, rule, interpretation, side, count, drawing, width, version_for_logo;
static int is_measured;

/* What a call writes, besides the buffer `out`. */
static union {
	struct qrproved_symbol symbol;
	struct {
		struct qrproved_symbol symbol;
		uint8_t largest;
	} logo;
	struct qrproved_series series;
	struct qrproved_content content;
	struct qrproved_mended mended;
	struct qrproved_drawn drawn;
	struct {
		struct qrproved_found one;
		size_t count;
	} found;
	size_t written;
	uint8_t bytes[64];
} told, kept_told;

/* The call writes to the buffer that it reads, so `out` becomes what that buffer has if it has changed. */
static uint8_t mask_with(uint8_t *place, size_t len, size_t area)
{
	memcpy(masked, modules, area);
	uint8_t status = qrproved_set_mask_in(place, len, masked, area, side, QRPROVED_MASK_MAX);
	if (memcmp(masked, modules, area))
		memcpy(out, masked, area);
	return status;
}

static uint8_t call_with(enum call call, uint8_t *place, size_t len)
{
	size_t area = (size_t)side * side;
	switch (call) {
	case ENCODE:
		return qrproved_encode_in(place, len, input, input_len, 1, level, rule, interpretation, 0, out, QRPROVED_SYMBOL_MAX, &told.symbol);
	case BITS:
		return qrproved_encode_bits_in(place, len, input, input_len, 1, level, rule, interpretation, 0, out, QRPROVED_BITS(177), &told.symbol);
	case LOGO:
		return qrproved_encode_logo_in(place, len, input, input_len, 1, level, rule, interpretation, 2, 75, out, QRPROVED_SYMBOL_MAX, &told.logo.symbol,
		                               &told.logo.largest);
	case SERIES:
		return qrproved_encode_series_in(place, len, input, input_len, version, level, rule, interpretation, out, QRPROVED_SERIES_MAX, &told.series);
	case MASK:
		return mask_with(place, len, area);
	case READ:
		return qrproved_read_in(place, len, modules, area, side, out, QRPROVED_BYTES_MAX, NULL, 0, &told.content);
	case MEND:
		return qrproved_mend_in(place, len, damaged, area, side, out, QRPROVED_BYTES_MAX, NULL, 0, &told.mended);
	case DRAW:
		return qrproved_draw_in(place, len, modules, area * count, side, count, drawing, 4, out, sizeof out, &told.written);
	case DOCUMENT:
		return qrproved_document_in(place, len, modules, area * count, side, count, drawing % 3, 4, 330, out, sizeof out, &told.written);
	case COLOURED:
		return qrproved_pdf_in(place, len, modules, area * count, side, count, 4, 330, 0x102030FF, 0xFFFFFFFF, out, sizeof out, &told.written);
	case SHEETS:
		return qrproved_sheets_in(place, len, modules, area * count, side, count, 4, 330, &PAPER, out, sizeof out, &told.written);
	case FIND:
		return qrproved_find_in(place, len, pixels, sizeof pixels, width, width, width, 1, out, QRPROVED_SYMBOL_MAX, &told.found.one, 1, &told.found.count);
	default:
		return qrproved_parse_drawing_in(place, len, text, text_len, out, QRPROVED_SERIES_MAX, &told.drawn);
	}
}

/* The bytes of `out` that a call may write. */
static size_t room_of(enum call call)
{
	const size_t rooms[CALLS] = {QRPROVED_SYMBOL_MAX, QRPROVED_BITS(177), QRPROVED_SYMBOL_MAX, QRPROVED_SERIES_MAX, QRPROVED_SYMBOL_MAX, QRPROVED_BYTES_MAX, QRPROVED_BYTES_MAX,
				     TEXT_MAX, TEXT_MAX, TEXT_MAX, TEXT_MAX, QRPROVED_SERIES_MAX, QRPROVED_SYMBOL_MAX};
	return rooms[call];
}

static size_t enough_for(enum call call)
{
	switch (call) {
	case ENCODE:
	case BITS:
		return QRPROVED_ENCODE_MEMORY(version);
	case LOGO:
		return QRPROVED_ENCODE_LOGO_MEMORY(version_for_logo);
	case SERIES:
		return QRPROVED_ENCODE_SERIES_MEMORY(version, count);
	case MASK:
		return QRPROVED_SET_MASK_MEMORY(version);
	case READ:
		return QRPROVED_READ_MEMORY(version);
	case MEND:
		return QRPROVED_MEND_MEMORY(version);
	case DRAW:
		return QRPROVED_DRAW_MEMORY(drawing, side, count, 4);
	case DOCUMENT:
		return QRPROVED_DOCUMENT_MEMORY(side, count);
	case COLOURED:
		return QRPROVED_PDF_MEMORY(side, count);
	case SHEETS:
		return QRPROVED_SHEETS_MEMORY(side, count);
	case FIND:
		return QRPROVED_FIND_MEMORY(width, width);
	default:
		return QRPROVED_PARSE_DRAWING_MEMORY(side, count, 4);
	}
}

static void fault(enum call call, const char *what, size_t len)
{
	printf("FAILED: %s, version %u, level %u, rule %u, interpretation %u, %u bytes of input, %u bytes of memory: %s\n", NAMES[call], (unsigned)version,
	       (unsigned)level, (unsigned)rule, (unsigned)interpretation, (unsigned)input_len, (unsigned)len, what);
	exit(1);
}

/* The least memory with which a call succeeds, found by halves. */
static size_t least_for(enum call call)
{
	size_t too_little = 0, fits = MEMORY_MAX;
	if (call_with(call, memory, MEMORY_MAX) != QRPROVED_DONE)
		fault(call, "not done", MEMORY_MAX);
	for (size_t step = 4096; fits == MEMORY_MAX; step *= 2)
		if (step >= MEMORY_MAX || call_with(call, memory, step) == QRPROVED_DONE)
			fits = step;
		else
			too_little = step;
	while (fits - too_little > 16) {
		size_t len = too_little + (fits - too_little) / 2;
		if (call_with(call, memory, len) == QRPROVED_DONE)
			fits = len;
		else
			too_little = len;
	}
	return fits;
}

static void want_unchanged(enum call call, uint8_t *place, size_t len)
{
	size_t room = room_of(call);
	memset(out, MARK, room), memset(&told, MARK, sizeof told);
	if (call_with(call, place, len) != QRPROVED_MEMORY)
		fault(call, "is not MEMORY", len);
	for (size_t i = 0; i < room; i++)
		if (out[i] != MARK)
			fault(call, "a buffer is changed", len);
	for (size_t i = 0; i < sizeof told.bytes; i++)
		if (told.bytes[i] != MARK)
			fault(call, "the struct is changed", len);
}

static void try_call(enum call call)
{
	size_t least = least_for(call), enough = enough_for(call), room = room_of(call);
	size_t number = call == ENCODE || call == READ || call == MEND ? least : least * 100 / enough;
	most[call][version] = number > most[call][version] ? number : most[call][version];
	if (is_measured)
		return;
	if (enough < least + least / 10)
		fault(call, "takes more than ten elevenths of the macro", least);
	memset(out, MARK, room), memset(&told, MARK, sizeof told);
	if (call_with(call, memory, MEMORY_MAX) != QRPROVED_DONE)
		fault(call, "not done", MEMORY_MAX);
	memcpy(kept, out, room), kept_told = told;
	memset(out, MARK, room), memset(&told, MARK, sizeof told);
	memory[1 + enough] = MARK;
	if (call_with(call, memory + 1, enough) != QRPROVED_DONE || memcmp(kept, out, room) || memcmp(&kept_told, &told, sizeof told))
		fault(call, "another result", enough);
	if (memory[1 + enough] != MARK)
		fault(call, "a byte after the memory is changed", enough);
	for (size_t k = 1; k <= SHORTER; k++)
		want_unchanged(call, memory, (least - 17) * (SHORTER - k) / (SHORTER - 1));
	want_unchanged(call, NULL, 0);
}

/* Fills the input: a kind below 4 has one mode, and the others have runs in turn, shorter with each kind. */
static void fill(uint32_t kind)
{
	static const char *const MODES[] = {"31415926", "AEIOUX", "\x93\x5f\xe4\xaa", "aeiou,", "1\x1d""2\x1d", "A%B%"};
	uint32_t left = 0, now = kind % 4, turn = 0;
	for (size_t i = 0; i < sizeof input; i++, turn++) {
		if (kind >= 4 && left-- == 0)
			left = kind >= 10 ? turn % 3 : 26 / (kind - 3) + turn * turn % 5, now = (now + 1 + turn % 2) % 4, turn += left;
		const char *mode = MODES[kind >= 4 && interpretation == QRPROVED_INTERPRETATION_GS1 && kind % 3 == 0 ? 4 + now % 2 : now];
		input[i] = (uint8_t)mode[i % strlen(mode)];
		if (i > 0 && input[i - 1] == 0x1D && (input[i] == 0x1D || input[i] == '%'))
			input[i] = '1';
	}
}

/* The longest input that fits the version, by halves. Returns whether there is one that fits no smaller version. */
static int find_longest(void)
{
	size_t fits = 0, too_long = QRPROVED_BYTES_MAX + 1;
	while (too_long - fits > 1) {
		input_len = fits + (too_long - fits) / 2;
		if (call_with(ENCODE, memory, MEMORY_MAX) == QRPROVED_DONE && told.symbol.version <= version)
			fits = input_len;
		else
			too_long = input_len;
	}
	input_len = fits;
	return fits > 0 && call_with(ENCODE, memory, MEMORY_MAX) == QRPROVED_DONE && told.symbol.version == version;
}

/* Draws the symbol under another mask, reads its modules, and mends them with some of them inverted. */
static void read_and_mend(void)
{
	size_t area = (size_t)side * side;
	try_call(MASK);
	try_call(READ);
	memcpy(damaged, modules, area);
	for (size_t k = 0; k < 1 + version / 2; k++)
		damaged[(k * 977 + 300) % area] ^= 1;
	if (call_with(MEND, memory, MEMORY_MAX) != QRPROVED_DONE)
		memcpy(damaged, modules, area);
	try_call(MEND);
}

/* Finds the symbol in a picture with two pixels a module, in which every eleventh pixel is grey, so that many squares are mended. */
static void find(void)
{
	width = 2 * side + 16;
	for (uint32_t y = 0; y < width; y++)
		for (uint32_t x = 0; x < width; x++) {
			uint32_t row = (y - 8) / 2, column = (x - 8) / 2;
			int is_dark = y >= 8 && x >= 8 && row < side && column < side && modules[row * side + column];
			pixels[y * width + x] = (x + 3 * y) % 11 == 0 ? 120 : is_dark ? 0 : 255;
		}
	try_call(FIND);
}

static void draw_and_parse(void)
{
	for (drawing = 0; drawing < DRAWINGS; drawing++) {
		try_call(DOCUMENT);
		try_call(COLOURED);
		try_call(SHEETS);
		try_call(DRAW);
		call_with(DRAW, memory, MEMORY_MAX);
		text_len = told.written;
		memcpy(text, out, text_len);
		try_call(PARSE);
	}
}

static void try_symbols(uint32_t kind)
{
	fill(kind);
	if (!find_longest())
		return;
	try_call(ENCODE);
	try_call(BITS);
	if (call_with(LOGO, memory, MEMORY_MAX) == QRPROVED_DONE) {
		version_for_logo = told.logo.symbol.version;
		try_call(LOGO);
	}
	side = 17 + 4 * version, count = 1;
	call_with(ENCODE, memory, MEMORY_MAX);
	memcpy(modules, out, (size_t)side * side);
	read_and_mend();
	if (kind == 2 && level == 0 && rule == 0) {
		draw_and_parse();
		find();
	}
	if (kind % 5 || level % 3)
		return;
	input_len *= 3 + version % 12;
	if (call_with(SERIES, memory, MEMORY_MAX) == QRPROVED_DONE) {
		count = told.series.count;
		memcpy(modules, out, (size_t)side * side * count);
		try_call(SERIES);
		if (kind == 5 && rule == 1 && version % 9 == 0)
			draw_and_parse();
	}
}

/* The symbols of standard input. */
static void try_given(void)
{
	int given = getchar();
	for (; given != EOF; given = getchar()) {
		side = (uint32_t)given, version = (side - 17) / 4, level = rule = interpretation = 0, input_len = 0;
		if (fread(modules, 1, (size_t)side * side, stdin) != (size_t)side * side)
			exit(2);
		read_and_mend();
	}
}

static void tell_most(void)
{
	printf("version %u:", (unsigned)version);
	for (int call = 0; call < CALLS; call++)
		printf(" %s %u%s", NAMES[call], (unsigned)most[call][version], call < CALLS - 1 ? "," : "\n");
	fflush(stdout);
}

int main(int argc, char **argv)
{
	is_measured = argc == 2 && !strcmp(argv[1], "least");
	if (argc != 2 || (!is_measured && strcmp(argv[1], "enough")))
		return 2;
	try_given();
	for (version = 1; version <= VERSIONS; version += version < 3 || version % 9 == 0 ? 1 : 3) {
		for (level = 0; level < LEVELS; level++)
			for (rule = 0; rule < RULES; rule++)
				for (size_t k = 0; k < sizeof INTERPRETATIONS / sizeof *INTERPRETATIONS; k++) {
					interpretation = INTERPRETATIONS[k];
					for (uint32_t kind = 0; kind < KINDS && (rule < 2 || k != 1); kind++)
						if (is_measured || (kind + version + level) % 4 == 0)
							try_symbols(kind);
				}
		if (is_measured)
			tell_most();
	}
	if (!is_measured)
		puts("memory: as wanted");
	return 0;
}
