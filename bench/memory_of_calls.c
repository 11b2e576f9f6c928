/* Measures what a call of the library takes of the stack and of the heap, for bench/memory:
 * memory_of_calls CALL NUMBER LEVEL RULE INTERPRETATION BOOST
 *
 * CALL is the name of a call, as encode or parse_drawing. Standard input is the input, the modules or the drawing.
 * NUMBER is a version for room and for the calls that encode, and a side for the others; parse_drawing does not use it. LEVEL is
 * the level, and for calls that draw the type of the drawing. For image RULE is the format, and for room the mode; there BOOST
 * says whether there is a header. Prints the bytes of stack, the most bytes of the heap at a time, the number of calls of malloc
 * and realloc, and the call's status. */
#define _GNU_SOURCE
#include "qrproved.h"
#include <malloc.h>
#include <pthread.h>
#include <stdio.h>
#include <stdlib.h>
#include <string.h>

enum { STACK = 1 << 20, MARK = 0xA5 };

void *__libc_malloc(size_t size);
void *__libc_realloc(void *old, size_t size);
void __libc_free(void *block);

static size_t held, most, calls;
static int counts;

static void *counted(void *block, size_t before)
{
	if (counts && block) {
		calls += 1;
		held += malloc_usable_size(block) - before;
		most = held > most ? held : most;
	}
	return block;
}

void *malloc(size_t size) { return counted(__libc_malloc(size), 0); }

void *realloc(void *old, size_t size)
{
	size_t before = old && counts ? malloc_usable_size(old) : 0;
	return counted(__libc_realloc(old, size), before);
}

void free(void *block)
{
	if (counts && block)
		held -= malloc_usable_size(block);
	__libc_free(block);
}

static uint8_t input[6000000], out[10000000];
static size_t input_len, deepest;
static uint8_t number, level, rule, boost, status;
static uint32_t interpretation;
static const char *call;

/* Marks the stack below, so that what a call wrote of it can be seen. The least that is measured is its frame above the array. */
static __attribute__((noinline)) void mark(void)
{
	volatile uint8_t below[STACK / 2];
	for (size_t i = 0; i < sizeof below; i++)
		below[i] = MARK;
}

/* Paper with one label on each sheet. */
static const struct qrproved_sheet PAPER = {100000, 100000, 0, 0, 0, 0, 1, 1, 0};

static __attribute__((noinline)) void make(void)
{
	struct qrproved_symbol symbol;
	struct qrproved_series series;
	struct qrproved_content content;
	struct qrproved_mended mended;
	struct qrproved_drawn drawn;
	size_t written;
	uint32_t count;
	uint8_t largest;
	if (!strcmp(call, "encode"))
		status = qrproved_encode(input, input_len, number, level, rule, interpretation, boost, out, sizeof out, &symbol);
	else if (!strcmp(call, "encode_bits"))
		status = qrproved_encode_bits(input, input_len, number, level, rule, interpretation, boost, out, sizeof out, &symbol);
	else if (!strcmp(call, "encode_logo"))
		status = qrproved_encode_logo(input, input_len, number, level, rule, interpretation, 10, 50, out, sizeof out, &symbol, &largest);
	else if (!strcmp(call, "encode_series"))
		status = qrproved_encode_series(input, input_len, number, level, rule, interpretation, out, sizeof out, &series);
	else if (!strcmp(call, "set_mask")) {
		memcpy(out, input, input_len);
		status = qrproved_set_mask(out, input_len, number, level);
	} else if (!strcmp(call, "read"))
		status = qrproved_read(input, input_len, number, out, sizeof out, NULL, 0, &content);
	else if (!strcmp(call, "draw"))
		status = qrproved_draw(input, input_len, number, (uint32_t)(input_len / number / number), level, 4, out, sizeof out, &written);
	else if (!strcmp(call, "draw_row"))
		status = qrproved_draw_row(input, input_len, number, level % 3, 4, 10, out, sizeof out, &written);
	else if (!strcmp(call, "document"))
		status = qrproved_document(input, input_len, number, (uint32_t)(input_len / number / number), level % 3, 4, 330, out, sizeof out, &written);
	else if (!strcmp(call, "pdf"))
		status = qrproved_pdf(input, input_len, number, (uint32_t)(input_len / number / number), 4, 330, 0x102030FF, 0xFFFFFFFF, out, sizeof out, &written);
	else if (!strcmp(call, "sheets"))
		status = qrproved_sheets(input, input_len, number, (uint32_t)(input_len / number / number), 4, 330, &PAPER, out, sizeof out, &written);
	else if (!strcmp(call, "image"))
		status = qrproved_image(input, input_len, number, rule, 8, 4, 0, 0, 0, out, sizeof out, &written);
	else if (!strcmp(call, "png"))
		status = qrproved_png(input, input_len, number, 8, 4, 0, 0x102030FF, 0, out, sizeof out, &written);
	else if (!strcmp(call, "parse_drawing"))
		status = qrproved_parse_drawing(input, input_len, out, sizeof out, &drawn);
	else if (!strcmp(call, "room"))
		status = qrproved_room(number, level, rule, interpretation, boost, &count);
	else
		status = qrproved_mend(input, input_len, number, out, sizeof out, NULL, 0, &mended);
}

static void *measured(void *bottom)
{
	uint8_t here;
	mark();
	counts = 1, make(), counts = 0;
	const uint8_t *lowest = &here - STACK / 2 + 4096;
	while (lowest < &here && *lowest == MARK)
		lowest++;
	deepest = (size_t)(&here - lowest);
	return bottom;
}

int main(int argc, char **argv)
{
	pthread_attr_t how;
	pthread_t thread;
	if (argc != 7)
		return 2;
	call = argv[1], number = (uint8_t)atoi(argv[2]), level = (uint8_t)atoi(argv[3]), rule = (uint8_t)atoi(argv[4]);
	interpretation = (uint32_t)atoi(argv[5]), boost = (uint8_t)atoi(argv[6]);
	input_len = fread(input, 1, sizeof input, stdin);
	if (pthread_attr_init(&how) || pthread_attr_setstacksize(&how, 2 * STACK) || pthread_create(&thread, &how, measured, NULL))
		return 2;
	pthread_join(thread, NULL);
	printf("%zu %zu %zu %d\n", deepest, most, calls, status);
	return 0;
}
