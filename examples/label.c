/* Prints the symbol of its words as text, with the quiet zone: label [-a] WORD...
 *
 * The words are in UTF-8, which the symbol says if they have a character that is not in ASCII; words in another encoding are refused, as
 * `main` gets them on Windows. By half blocks in UTF-8, light on a dark terminal, or with -a by two characters a module in ASCII. */
#include "qrproved.h"
#include <stdio.h>
#include <string.h>

enum { QUIET_ZONE = 4, INPUT_MAX = 8192, TEXT_MAX = 70000 };

static uint8_t modules[QRPROVED_SYMBOL_MAX], text[TEXT_MAX];

static const char *reason(uint8_t status)
{
	switch (status) {
	case QRPROVED_EMPTY: return "there are no words";
	case QRPROVED_TOO_LONG: return "the words do not fit a symbol";
	case QRPROVED_MEMORY: return "out of memory";
	default: return "not encoded";
	}
}

/* Each character is one byte below 80, or one from C2 to F4 and then up to three from 80 to BF. */
static int is_utf8(const uint8_t *input, size_t len)
{
	size_t more = 0;
	for (size_t i = 0; i < len; i++)
		if (more && input[i] >= 0x80 && input[i] < 0xC0)
			more--;
		else if (more || (input[i] >= 0x80 && input[i] < 0xC2) || input[i] > 0xF4)
			return 0;
		else
			more = (size_t)(input[i] >= 0xC2) + (input[i] >= 0xE0) + (input[i] >= 0xF0);
	return more == 0;
}

/* Text of ASCII alone reads the same in every reader, so the symbol says nothing of it. */
static uint32_t interpretation_of(const uint8_t *input, size_t len)
{
	for (size_t i = 0; i < len; i++)
		if (input[i] > 0x7F)
			return QRPROVED_ECI_UTF8;
	return QRPROVED_INTERPRETATION_DEFAULT;
}

/* The words with a space between them, and how many bytes they are; bytes that find no place are only counted. */
static size_t joined(char **words, uint8_t *input, size_t room)
{
	size_t len = 0;
	for (char **word = words; *word; word++) {
		if (word != words && len++ < room)
			input[len - 1] = ' ';
		for (const char *at = *word; *at; at++)
			if (len++ < room)
				input[len - 1] = (uint8_t)*at;
	}
	return len;
}

int main(int argc, char **argv)
{
	static uint8_t input[INPUT_MAX];
	struct qrproved_symbol symbol;
	int is_ascii = argc > 1 && strcmp(argv[1], "-a") == 0;
	size_t len = joined(argv + (argc > 0) + is_ascii, input, sizeof input), written;
	uint8_t status = QRPROVED_TOO_LONG;

	if (len <= sizeof input && !is_utf8(input, len)) {
		fputs("label: the words are not in UTF-8\n", stderr);
		return 1;
	}
	if (len <= sizeof input)
		status = qrproved_encode(input, len, 1, QRPROVED_LEVEL_M, QRPROVED_RULE_AUTO, interpretation_of(input, len), 0, modules,
					 sizeof modules, &symbol);
	if (status == QRPROVED_DONE)
		status = qrproved_draw(modules, sizeof modules, symbol.side, 1, is_ascii ? QRPROVED_ASCII : QRPROVED_UTF8, QUIET_ZONE,
				       text, sizeof text, &written);
	if (status != QRPROVED_DONE) {
		fprintf(stderr, "label: %s\n", reason(status));
		return 1;
	}
	return fwrite(text, 1, written, stdout) == written && fflush(stdout) == 0 ? 0 : 1;
}
