/* Reads or mends the modules of standard input as a symbol, writes their image, or parses standard input as a drawing, again and
 * again, for bench/library: reading_instructions CALL SIDE TIMES
 *
 * CALL is read, mend, parse, or the number of a format of images, a comma and a scale; parse does not use the side. */
#include "qrproved.h"
#include <stdio.h>
#include <stdlib.h>
#include <string.h>

static uint8_t given[1000000], image[1000000], modules[QRPROVED_SYMBOL_MAX], bytes[QRPROVED_BYTES_MAX];
static size_t len;
static uint32_t side;

static uint8_t call(const char *name)
{
	struct qrproved_content content;
	struct qrproved_mended mended;
	struct qrproved_drawn drawn;
	size_t written;
	unsigned format, scale;
	if (!strcmp(name, "parse"))
		return qrproved_parse_drawing(given, len, modules, sizeof modules, &drawn);
	if (!strcmp(name, "mend"))
		return qrproved_mend(given, len, side, bytes, sizeof bytes, NULL, 0, &mended);
	if (sscanf(name, "%u,%u", &format, &scale) == 2)
		return qrproved_image(given, len, side, format, scale, 4, 0, 0, 0, image, sizeof image, &written);
	return qrproved_read(given, len, side, bytes, sizeof bytes, NULL, 0, &content);
}

int main(int argc, char **argv)
{
	if (argc != 4)
		return 2;
	len = fread(given, 1, sizeof given, stdin);
	side = (uint32_t)atoi(argv[2]);
	for (int times = atoi(argv[3]); times > 0; times--)
		if (call(argv[1]))
			return 1;
	return 0;
}
