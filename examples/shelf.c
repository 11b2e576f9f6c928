/* Prints a label as an SVG document, the symbol of the words and the words below it: shelf WORDS
 *
 * The words are one argument, in UTF-8. On Windows `main` gets them in another encoding, so there they have to be of ASCII. */
#include "qrproved.h"
#include <stdio.h>
#include <string.h>

enum { MARGIN = 4, FONT = 3, TEXT_MAX = 400000 };

static uint8_t modules[QRPROVED_SYMBOL_MAX], text[TEXT_MAX];

/* Prints words as the text of a document. */
static void print_words(const char *words)
{
	for (; *words; words++)
		switch (*words) {
		case '&': fputs("&amp;", stdout); break;
		case '<': fputs("&lt;", stdout); break;
		case '>': fputs("&gt;", stdout); break;
		default: putchar(*words);
		}
}

/* Words of ASCII alone read the same in every reader; of others the symbol says that they are in UTF-8. */
static uint32_t interpretation_of(const char *words)
{
	for (; *words; words++)
		if ((unsigned char)*words > 0x7F)
			return QRPROVED_ECI_UTF8;
	return QRPROVED_INTERPRETATION_DEFAULT;
}

int main(int argc, char **argv)
{
	struct qrproved_symbol symbol;
	size_t written;

	if (argc != 2) {
		fputs("shelf: the words of the label are one argument\n", stderr);
		return 1;
	}
	const uint8_t *input = (const uint8_t *)argv[1];
	uint8_t status = qrproved_encode(input, strlen(argv[1]), 1, QRPROVED_LEVEL_M, QRPROVED_RULE_AUTO, interpretation_of(argv[1]), 0,
					 modules, sizeof modules, &symbol);
	if (status == QRPROVED_DONE)
		status = qrproved_draw(modules, sizeof modules, symbol.side, 1, QRPROVED_SVG, MARGIN, text, sizeof text, &written);
	if (status != QRPROVED_DONE) {
		fprintf(stderr, "shelf: no label, status %d\n", status);
		return 1;
	}
	/* The drawing is a document of its own: its first line, which says so, is skipped, and the rest becomes a part of ours. */
	const uint8_t *drawing = memchr(text, '\n', written);
	if (!drawing++)
		return 1;
	int width = symbol.side + 2 * MARGIN;
	printf("<svg xmlns=\"http://www.w3.org/2000/svg\" viewBox=\"0 0 %d %d\">\n", width, width + FONT + 1);
	printf("<rect width=\"%d\" height=\"%d\" fill=\"#ffffff\"/>\n", width, width + FONT + 1);
	printf("<svg width=\"%d\" height=\"%d\">\n", width, width);
	fwrite(drawing, 1, written - (size_t)(drawing - text), stdout);
	printf("</svg>\n<text x=\"%d\" y=\"%d\" font-size=\"%d\" text-anchor=\"middle\">", width / 2, width + FONT - 1, FONT);
	print_words(argv[1]);
	puts("</text>\n</svg>");
	return fflush(stdout) == 0 && !ferror(stdout) ? 0 : 1;
}
