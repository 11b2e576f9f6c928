/* Lets the library parse drawings, for tests/library: drawings WHAT COUNT
 *
 * WHAT is `whole` or `changed`. `whole` draws symbols of all versions, levels and types, with margins from 0 to 100,
 * and series of up to 16 symbols. Parsing has to find the squares that were drawn. `changed` makes one to four changes
 * in each drawing. The text has to be refused, or has to be the drawing of what is returned, which is drawn again to
 * see that. More than nine of ten have to be refused. Prints how many drawings there were, or the first that fails. */
#include "qrproved.h"
#include <stdio.h>
#include <stdlib.h>
#include <string.h>

enum { VERSIONS = 40, LEVELS = 4, DRAWINGS = 4, SMALL = 12, TEXT_MAX = 12000000 };

static uint8_t input[QRPROVED_BYTES_MAX * 16], modules[QRPROVED_SERIES_MAX], shown[QRPROVED_SERIES_MAX], text[TEXT_MAX], again[TEXT_MAX];
static size_t text_len;
static uint32_t side, count;
static struct qrproved_drawn drawn;

/* SplitMix64, a generator of numbers that look random. */
static uint32_t below(uint32_t end)
{
	static uint64_t state = 7;
	uint64_t mixed = state += 0x9E3779B97F4A7C15;
	mixed = (mixed ^ mixed >> 30) * 0xBF58476D1CE4E5B9;
	mixed = (mixed ^ mixed >> 27) * 0x94D049BB133111EB;
	return (uint32_t)((mixed ^ mixed >> 31) % end);
}

static int fault(const char *what, uint32_t k, uint32_t status)
{
	printf("drawing %u: %s: status %u, type %u, margin %u, %u squares of side %u\n", k, what, status, drawn.drawing, drawn.margin, drawn.count, drawn.side);
	return 1;
}

/* Encodes some bytes in a version and a level, as a symbol or as a series of up to 16. */
static uint8_t encode(uint32_t version, uint32_t level, int is_series)
{
	struct qrproved_symbol symbol;
	struct qrproved_series series;
	uint32_t most = is_series ? 40 * version * version : 10, len = 1 + below(most);
	for (uint32_t i = 0; i < len; i++)
		input[i] = (uint8_t)below(256);
	if (!is_series) {
		uint8_t status = qrproved_encode(input, len, version, level, 0, QRPROVED_INTERPRETATION_DEFAULT, 0, modules, sizeof modules, &symbol);
		side = symbol.side, count = 1;
		return status;
	}
	uint8_t status = QRPROVED_TOO_MANY;
	for (; status == QRPROVED_TOO_MANY; len = len * 7 / 8)
		status = qrproved_encode_series(input, len, version, level, 0, QRPROVED_INTERPRETATION_DEFAULT, modules, sizeof modules, &series);
	side = series.side, count = series.count;
	return status;
}

static uint8_t draw(uint32_t drawing, uint32_t margin)
{
	return qrproved_draw(modules, sizeof modules, side, count, drawing, margin, text, sizeof text, &text_len);
}

static int whole(uint32_t most)
{
	for (uint32_t k = 0; k < most; k++) {
		uint32_t drawing = k % DRAWINGS, level = k / DRAWINGS % LEVELS, version = 1 + k / (DRAWINGS * LEVELS) % VERSIONS;
		uint32_t margin = below(2) ? below(8) : below(101);
		int is_series = below(8) == 0;
		if (is_series)
			version = 1 + below(SMALL), margin = below(20);
		uint8_t status = encode(version, level, is_series);
		if (status || (status = draw(drawing, margin)))
			return fault("not drawn", k, status);
		memset(shown, 7, sizeof shown);
		status = qrproved_parse_drawing(text, text_len, shown, sizeof shown, &drawn);
		if (status)
			return fault("not parsed", k, status);
		if (drawn.drawing != drawing || drawn.margin != margin || drawn.count != count || drawn.side != side)
			return fault("parsed as another drawing", k, status);
		size_t len = (size_t)count * side * side;
		if (memcmp(shown, modules, len) || (len < sizeof shown && shown[len] != 7))
			return fault("parsed as other modules", k, status);
	}
	printf("%u drawings are parsed as what was drawn\n", most);
	return 0;
}

/* Replaces, removes or inserts a byte, or cuts the text off. */
static void change(void)
{
	static const char SIGNS[] = " #\n\xE2\x96\x84\x80\x88M0123456789hvz-\"<x";
	size_t place = below((uint32_t)text_len);
	uint8_t sign = (uint8_t)SIGNS[below(sizeof SIGNS - 1)];
	switch (below(7)) {
	case 0: case 1: case 2: text[place] = sign; break;
	case 3: case 4: memmove(text + place, text + place + 1, --text_len - place); break;
	case 5: memmove(text + place + 1, text + place, text_len++ - place), text[place] = sign; break;
	default: text_len = place + 1;
	}
}

static int changed(uint32_t most)
{
	uint32_t parsed = 0;
	for (uint32_t k = 0; k < most; k++) {
		if (encode(1 + below(SMALL), below(LEVELS), below(4) == 0) || draw(k % DRAWINGS, below(6)))
			return fault("not drawn", k, 0);
		for (uint32_t changes = 1 + below(4); changes > 0; changes--)
			change();
		uint8_t status = qrproved_parse_drawing(text, text_len, shown, sizeof shown, &drawn);
		if (status == QRPROVED_NO_DRAWING)
			continue;
		size_t again_len;
		if (status || qrproved_draw(shown, sizeof shown, drawn.side, drawn.count, drawn.drawing, drawn.margin, again, sizeof again, &again_len))
			return fault("not drawn again", k, status);
		if (again_len != text_len || memcmp(again, text, text_len))
			return fault("drawn otherwise", k, status);
		parsed += 1;
	}
	if (10 * parsed >= most)
		return fault("too many changed drawings are parsed", parsed, 0);
	printf("%u changed drawings are refused, or what is returned\n", most);
	fprintf(stderr, "%u of %u parsed\n", parsed, most);
	return 0;
}

int main(int argc, char **argv)
{
	if (argc != 3)
		return 2;
	uint32_t most = (uint32_t)strtoul(argv[2], NULL, 10);
	return strcmp(argv[1], "whole") ? changed(most) : whole(most);
}
