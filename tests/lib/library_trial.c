/* Calls the library with many inputs for tests/c, and prints a line for each: the statuses, the numbers of the structs, and sums of
 * what was written. Two builds of the library have to print the same lines: library_trial STEP
 *
 * Symbols of every STEPth version are made in all levels, with rules, interpretations and boost in turn. Each is read, damaged and
 * mended, drawn in each type and parsed. Versions up to 20 also make series. The last lines are of numbers out of range. */
#include "qrproved.h"
#include <stdio.h>
#include <stdlib.h>
#include <string.h>

enum { INPUT_MAX = 20000, TEXT_MAX = 7000000, ECIS = 3, LEVELS = 4, DRAWINGS = 4, SERIES_VERSIONS = 20, EDGES = 8 };

/* Paper with three columns and two rows of labels, of which the first four stay free. */
static const struct qrproved_sheet PAPER = {200000, 150000, 1000, 2000, 62000, 63000, 3, 2, 4};

static uint8_t input[INPUT_MAX], modules[QRPROVED_SERIES_MAX], again[QRPROVED_SERIES_MAX], bytes[QRPROVED_BYTES_MAX], text[TEXT_MAX];

/* SplitMix64, a generator of numbers that look random. */
static uint32_t below(uint32_t end)
{
	static uint64_t state = 7;
	uint64_t mixed = state += 0x9E3779B97F4A7C15;
	mixed = (mixed ^ mixed >> 30) * 0xBF58476D1CE4E5B9;
	mixed = (mixed ^ mixed >> 27) * 0x94D049BB133111EB;
	return (uint32_t)((mixed ^ mixed >> 31) % end);
}

/* The sum of Fowler, Noll and Vo. */
static uint32_t sum_of(const uint8_t *all, size_t len)
{
	uint32_t sum = 2166136261;
	for (size_t i = 0; i < len; i++)
		sum = (sum ^ all[i]) * 16777619;
	return sum;
}

static void tell(const char *name, uint64_t number) { printf(" %s %llu", name, (unsigned long long)number); }

/* Digits, letters of alphanumeric mode, any bytes, or short runs of all of them. */
static void fill(uint32_t kind, size_t len)
{
	static const char LETTERS[] = "0123456789ABCDEFGHIJKLMNOPQRSTUVWXYZ $%*+-./:";
	uint32_t left = 0, now = kind;
	for (size_t i = 0; i < len; i++) {
		if (kind == 3 && left-- == 0)
			left = below(30), now = below(3);
		input[i] = (uint8_t)(now == 0 ? '0' + below(10) : now == 1 ? (uint32_t)LETTERS[below(45)] : below(256));
	}
}

static void read_symbol(uint32_t side)
{
	struct qrproved_content content;
	struct qrproved_eci ecis[ECIS];
	memset(&content, 0, sizeof content), memset(ecis, 0, sizeof ecis);
	tell("read", qrproved_read(modules, (size_t)side * side, side, bytes, sizeof bytes, ecis, ECIS, &content));
	tell("len", content.len), tell("bytes", sum_of(bytes, (size_t)content.len));
	tell("ecis", content.eci_count), tell("begin", ecis[0].begin), tell("number", ecis[0].number);
	tell("fnc1", content.fnc1), tell("header", content.has_header), tell("position", content.position), tell("last", content.last);
	tell("parity", content.parity), tell("kanji", content.has_kanji);
}

/* Inverts some modules, and makes one unknown. */
static void mend_symbol(uint32_t side, uint32_t wrong)
{
	struct qrproved_mended mended;
	struct qrproved_eci ecis[ECIS];
	uint32_t area = side * side;
	memset(&mended, 0, sizeof mended), memset(ecis, 0, sizeof ecis);
	memcpy(again, modules, area);
	while (wrong-- > 0)
		again[below(area)] ^= 1;
	again[below(area)] = 2;
	tell("mend", qrproved_mend(again, area, side, bytes, sizeof bytes, ecis, ECIS, &mended));
	tell("len", mended.len), tell("bytes", sum_of(bytes, (size_t)mended.len)), tell("ecis", mended.eci_count), tell("begin", ecis[0].begin);
	tell("wrong", mended.wrong_modules), tell("level", mended.level), tell("mask", mended.mask), tell("format", mended.wrong_format_modules);
	tell("most", mended.changed_most), tell("allowed", mended.changed_allowed), tell("spent", mended.spent_most);
	tell("misread", mended.worst_misread), tell("unknown", mended.worst_unknown);
}

/* Writes squares as documents in each format, draws them in each type, parses the drawings, and the last one once more with a changed
 * byte. */
static void draw_and_parse(uint32_t side, uint32_t count)
{
	struct qrproved_drawn drawn;
	size_t area = (size_t)side * side * count, written = 0;
	for (uint32_t format = QRPROVED_SVG_MM; format <= QRPROVED_PDF; format++) {
		tell("document", qrproved_document(modules, area, side, count, format, 4, 330, text, sizeof text, &written));
		tell("len", written), tell("text", sum_of(text, written));
	}
	tell("sheets", qrproved_sheets(modules, area, side, count, 4, 330, &PAPER, text, sizeof text, &written));
	tell("len", written), tell("text", sum_of(text, written));
	for (uint32_t drawing = 0; drawing < DRAWINGS; drawing++) {
		memset(&drawn, 0, sizeof drawn);
		tell("draw", qrproved_draw(modules, area, side, count, drawing, 4, text, sizeof text, &written));
		tell("len", written), tell("text", sum_of(text, written));
		tell("parse", qrproved_parse_drawing(text, written, again, sizeof again, &drawn));
		tell("type", drawn.drawing), tell("margin", drawn.margin), tell("count", drawn.count), tell("side", drawn.side);
		tell("same", memcmp(again, modules, area) == 0);
	}
	text[written / 2] ^= 1;
	tell("changed", qrproved_parse_drawing(text, written, again, sizeof again, &drawn));
}

static void encode(uint32_t version, uint32_t level)
{
	static const uint32_t INTERPRETATIONS[] = {QRPROVED_INTERPRETATION_DEFAULT, QRPROVED_ECI_UTF8, 20, QRPROVED_INTERPRETATION_GS1, 899};
	struct qrproved_symbol symbol;
	struct qrproved_series series;
	uint32_t kind = below(4), rule = below(3), boost = below(2), interpretation = INTERPRETATIONS[below(5)];
	size_t len = 1 + below(17 + version * version / 2 + version * 40 / (level + 1));
	memset(&symbol, 0, sizeof symbol), memset(&series, 0, sizeof series);
	if (rule == QRPROVED_RULE_WITH_KANJI && interpretation == QRPROVED_ECI_UTF8)
		rule = QRPROVED_RULE_AUTO;
	fill(kind, len);
	uint8_t status = qrproved_encode(input, len, version, level, rule, interpretation, boost, modules, sizeof modules, &symbol);
	tell("version", version), tell("level", level), tell("input", len), tell("encode", status), tell("version", symbol.version);
	tell("side", symbol.side), tell("level", symbol.level), tell("mask", symbol.mask);
	tell("modules", sum_of(modules, (size_t)symbol.side * symbol.side));
	if (!status) {
		read_symbol(symbol.side);
		mend_symbol(symbol.side, 1 + symbol.version / 2u);
		draw_and_parse(symbol.side, 1);
	}
	puts("");
	if (level != version % LEVELS || version > SERIES_VERSIONS)
		return;
	len *= 3;
	fill(kind, len);
	status = qrproved_encode_series(input, len, version, level, rule, interpretation, modules, sizeof modules, &series);
	tell("series", status), tell("count", series.count), tell("side", series.side);
	tell("modules", sum_of(modules, (size_t)series.count * series.side * series.side));
	if (!status) {
		read_symbol(series.side);
		mend_symbol(series.side, 1 + version / 2);
		draw_and_parse(series.side, series.count);
	}
	puts("");
}

int main(int argc, char **argv)
{
	uint32_t step = argc == 2 ? (uint32_t)atoi(argv[1]) : 1;
	tell("version", qrproved_version());
	puts("");
	for (uint32_t version = 1; version <= 40; version += step)
		for (uint32_t level = 0; level < LEVELS; level++)
			encode(version, level);
	for (uint32_t k = 0; k < EDGES; k++) {
		struct qrproved_symbol symbol;
		tell("edge", qrproved_encode(input, k * 1500, 41 - k % 2, k % 5, k % 4, 1000002 - k % 2, k % 3, modules, k * 100, &symbol));
		puts("");
	}
	return 0;
}
