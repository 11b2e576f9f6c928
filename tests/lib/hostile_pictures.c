/* Searches pictures with arguments that no caller should give, for tests/library: hostile_pictures COUNT
 *
 * COUNT times, qrproved_find is called with arguments that are chosen at random, but the same on every machine: sizes from 0 to above
 * the greatest, rows that overlap or are far apart, buffers that are just long enough or have a byte less, noise, stripes, finder
 * patterns, and symbols that are damaged or cut off. Each buffer begins just after a page that cannot be read or written, or ends just
 * before one. A block of memory that the library allocates ends at most 15 bytes before such a page. So a signal ends the process at
 * the first byte outside. The pixels cannot be written. In a quarter of the calls there is not enough memory. Each call has to return
 * the first status whose cause applies, and may write nothing else than the header says. */
#define _GNU_SOURCE
#include "qrproved.h"
#include <errno.h>
#include <stdio.h>
#include <stdlib.h>
#include <string.h>
#include <sys/mman.h>

enum { PAGE = 4096, MARK = 7, FOUND_MAX = 3, SIDE_MAX = 100, SYMBOLS = 8, LEAST = 100 };
enum { PIXELS_ROOM = 262144, MODULES_ROOM = 94208, FOUND_ROOM = PAGE };

static uint64_t state = 20261130;

static uint32_t below(uint32_t n)
{
	state ^= state << 13, state ^= state >> 7, state ^= state << 17;
	return (uint32_t)((state >> 16) % n);
}

/* ---- memory: a head in a page of its own, the block, and a page that cannot be read or written */

struct head {
	size_t len, whole;
};

static size_t held, limit = SIZE_MAX;
static int is_refused;

/* Returns so many bytes between two pages that cannot be read or written. */
static uint8_t *fenced(size_t len)
{
	uint8_t *all = mmap(NULL, len + 2 * PAGE, PROT_NONE, MAP_PRIVATE | MAP_ANONYMOUS, -1, 0);
	if (all == MAP_FAILED || mprotect(all + PAGE, len, PROT_READ | PROT_WRITE))
		abort();
	return all + PAGE;
}

void *malloc(size_t len)
{
	if (len > limit || held > limit - len) {
		is_refused = 1;
		errno = ENOMEM;
		return NULL;
	}
	size_t room = (len + PAGE - 1) / PAGE * PAGE;
	uint8_t *first = fenced(PAGE + room);
	*(struct head *)first = (struct head){len, 3 * PAGE + room};
	held += len;
	return first + (PAGE + room - len) / 16 * 16;
}

void free(void *block)
{
	if (!block)
		return;
	struct head *head = (struct head *)((uintptr_t)block / PAGE * PAGE - PAGE);
	held -= head->len;
	munmap((uint8_t *)head - PAGE, head->whole);
}

void *calloc(size_t count, size_t size)
{
	return size && count > SIZE_MAX / size ? NULL : malloc(count * size);
}

void *realloc(void *old, size_t len)
{
	void *block = malloc(len);
	if (block && old) {
		size_t old_len = ((struct head *)((uintptr_t)old / PAGE * PAGE - PAGE))->len;
		memcpy(block, old, old_len < len ? old_len : len);
		free(old);
	}
	return block;
}

/* ---- pictures */

struct symbol {
	uint32_t side;
	uint8_t modules[29 * 29];
};

static struct symbol symbols[SYMBOLS];

static void prepare(void)
{
	for (uint32_t k = 0; k < SYMBOLS; k++) {
		static const uint8_t text[] = "Shelf 12 / 7, 0123456789";
		struct qrproved_symbol told;
		if (qrproved_encode(text, 5 + k, 1 + k % 3, k % 4, 0, QRPROVED_INTERPRETATION_DEFAULT, 0, symbols[k].modules, sizeof symbols[k].modules, &told))
			abort();
		symbols[k].side = told.side;
	}
}

/* A symbol with modules of `scale` pixels whose corner is at a place, which may be outside. Some of its modules may be wrong. */
static void put_symbol(uint8_t *pixels, uint32_t width, uint32_t height, uint32_t stride)
{
	const struct symbol *symbol = &symbols[below(SYMBOLS)];
	uint32_t scale = 1 + below(4), is_inverse = below(4) == 0, is_mirrored = below(4) == 0, is_damaged = below(2), share = below(2) ? 50 : 12, size = symbol->side * scale;
	int32_t left = (int32_t)below(width + 4 * scale) - (int32_t)(2 * scale), top = (int32_t)below(height + 4 * scale) - (int32_t)(2 * scale);
	if (below(4) && size < width && size < height)
		left = (int32_t)below(width - size), top = (int32_t)below(height - size);
	for (uint32_t v = 0; v < size; v++)
		for (uint32_t u = 0; u < size; u++) {
			int32_t x = left + (int32_t)u, y = top + (int32_t)v;
			uint32_t row = v / scale, column = u / scale, is_wrong = is_damaged && below(share) == 0;
			uint32_t at = is_mirrored ? column * symbol->side + row : row * symbol->side + column;
			if (x >= 0 && y >= 0 && x < (int32_t)width && y < (int32_t)height)
				pixels[(size_t)y * stride + (size_t)x] = (symbol->modules[at] ^ is_wrong ^ is_inverse) ? 0 : 255;
		}
}

/* A pixel of a picture of some kind. */
static uint8_t pixel_of(uint32_t kind, uint32_t step, uint32_t x, uint32_t y)
{
	uint32_t u = x / step % 8, v = y / step % 8, far = (u > 3 ? u - 3 : 3 - u) > (v > 3 ? v - 3 : 3 - v) ? (u > 3 ? u - 3 : 3 - u) : (v > 3 ? v - 3 : 3 - v);
	switch (kind) {
	case 0:
		return (uint8_t)below(256);
	case 1:
		return below(2) ? 255 : 0;
	case 2:
		return (uint8_t)(step * 40);
	case 3:
		return (x / step + y / step) % 2 ? 255 : 0;
	case 4:
		return far == 2 || far == 4 ? 255 : 0;
	case 5:
		return (uint8_t)(x * step + y);
	default:
		return 255;
	}
}

/* ---- the call */

static uint8_t *pixels_room, *modules_room, *found_room, marks[MODULES_ROOM];
static uint32_t done, refused, lacking, wrong_settings, squares, squares_read, number;

static void want(const char *what, int is_so)
{
	if (!is_so) {
		printf("FAILED: call %u: %s\n", (unsigned)number, what);
		exit(1);
	}
}

/* A size, most often a small one. */
static uint32_t size_of(void)
{
	static const uint32_t sizes[] = {0, 1, 2, 7, 8, 9, 20, 21, 22, 32, 63, 64, 65, 32767, 32768, 65535, UINT32_MAX};
	return below(4) ? 20 + below(below(16) ? 28 : SIDE_MAX) : below(2) ? 1 + below(20) : sizes[below(sizeof sizes / sizeof *sizes)];
}

/* What a square that was written has to be, and that nothing is written after its modules. */
static void look_at(const struct qrproved_found *one, const uint8_t *modules, int may_be_unread)
{
	static uint8_t bytes[QRPROVED_BYTES_MAX];
	struct qrproved_mended mended;
	size_t area = (size_t)one->side * one->side;
	want("a side that a symbol has", one->side >= 21 && one->side <= 177 && one->side % 4 == 1);
	want("flags", one->quarter_turns < 4 && one->is_inverse < 2 && one->is_mirrored < 2 && one->is_read < 2 && (one->is_read || may_be_unread));
	for (size_t i = 0; i < area; i++)
		want("modules", modules[i] <= 2);
	want("nothing after the modules", !memcmp(modules + area, marks, QRPROVED_SYMBOL_MAX - area));
	squares += 1, squares_read += one->is_read;
	want("a symbol that counts as read is mended",
	     !one->is_read || (qrproved_mend(modules, area, one->side, bytes, sizeof bytes, NULL, 0, &mended) == QRPROVED_DONE && mended.wrong_modules * 5 <= area));
}

static void call(void)
{
	uint32_t width = size_of(), height = below(8) ? size_of() : width, stride = below(4) ? width : width + below(5) - 2, unread = below(16) ? below(2) : below(3);
	if (below(64) == 0)
		stride = size_of();
	int are_settings = unread <= 1 && width && height && width <= QRPROVED_PICTURE_MAX && height <= QRPROVED_PICTURE_MAX && stride >= width;
	uint64_t needed = are_settings ? (uint64_t)(height - 1) * stride + width : below(200);
	size_t found_len = below(FOUND_MAX + 1), modules_len = found_len * QRPROVED_SYMBOL_MAX;
	if (needed > PIXELS_ROOM)
		needed = PIXELS_ROOM;
	size_t pixels_len = (size_t)needed, less = below(16) == 0;
	if (less && below(2) && pixels_len)
		pixels_len -= 1;
	else if (less && modules_len)
		modules_len -= 1;
	/* At the end or at the beginning of what can be read. */
	uint8_t *pixels = pixels_room + (below(4) ? PIXELS_ROOM - pixels_len : 0), *modules = modules_room + (below(4) ? MODULES_ROOM - modules_len : 0);
	uint8_t *structs = found_room + (below(4) ? FOUND_ROOM - found_len * sizeof(struct qrproved_found) : 0);
	struct qrproved_found *found = (struct qrproved_found *)structs;
	size_t count = MARK;
	int has_pixels = are_settings && pixels_len >= (uint64_t)(height - 1) * stride + width, has_room = has_pixels && modules_len >= found_len * QRPROVED_SYMBOL_MAX;
	if (has_pixels) {
		uint32_t kind = below(12), step = 1 + below(4);
		memset(pixels, 255, pixels_len);
		for (uint32_t y = 0; y < height; y++)
			for (uint32_t x = 0; x < width; x++)
				pixels[(size_t)y * stride + x] = pixel_of(kind, step, x, y);
		if (kind > 5)
			put_symbol(pixels, width, height, stride);
	}
	memset(modules_room, MARK, MODULES_ROOM), memset(found_room, MARK, FOUND_ROOM);
	is_refused = 0;
	limit = below(4) ? SIZE_MAX : held + below(below(2) ? 700000 : 5000);
	if (mprotect(pixels_room, PIXELS_ROOM, PROT_READ))
		abort();
	uint8_t status = qrproved_find(pixels, pixels_len, width, height, stride, unread, modules, modules_len, found, found_len, &count);
	limit = SIZE_MAX;
	if (mprotect(pixels_room, PIXELS_ROOM, PROT_READ | PROT_WRITE))
		abort();
	want("the status", status == (!are_settings ? QRPROVED_SETTINGS : !has_room ? QRPROVED_ROOM : is_refused ? QRPROVED_MEMORY : QRPROVED_DONE));
	done += status == QRPROVED_DONE, refused += status == QRPROVED_MEMORY, lacking += status == QRPROVED_ROOM, wrong_settings += status == QRPROVED_SETTINGS;
	if (status != QRPROVED_DONE) {
		want("nothing is written", !memcmp(modules_room, marks, MODULES_ROOM) && !memcmp(found_room, marks, FOUND_ROOM) && count == MARK);
		return;
	}
	want("the count", count <= found_len);
	for (size_t k = 0; k < count; k++)
		look_at(&found[k], modules + k * QRPROVED_SYMBOL_MAX, unread == 1);
	for (size_t k = 1; k < count; k++)
		want("squares that are read come first", found[k - 1].is_read >= found[k].is_read);
	size_t before = (size_t)(modules - modules_room), after = before + count * QRPROVED_SYMBOL_MAX;
	want("no other modules", !memcmp(modules_room, marks, before) && !memcmp(modules_room + after, marks, MODULES_ROOM - after));
	before = (size_t)(structs - found_room), after = before + count * sizeof *found;
	want("no other structs", !memcmp(found_room, marks, before) && !memcmp(found_room + after, marks, FOUND_ROOM - after));
}

int main(int argc, char **argv)
{
	uint32_t count = argc > 1 ? (uint32_t)strtoul(argv[1], NULL, 10) : 0;
	memset(marks, MARK, sizeof marks);
	pixels_room = fenced(PIXELS_ROOM), modules_room = fenced(MODULES_ROOM), found_room = fenced(FOUND_ROOM);
	prepare();
	size_t held_before = held;
	for (number = 1; number <= count; number++) {
		call();
		want("all memory is given back", held == held_before);
	}
	int is_varied = done >= LEAST && refused >= LEAST && lacking >= LEAST && wrong_settings >= LEAST && squares_read >= LEAST && squares > squares_read;
	printf("%u calls, %s\n", (unsigned)count, is_varied ? "of each kind" : "too few of a kind");
	if (argc > 2)
		printf("%u done, %u without memory, %u without room, %u with wrong settings, %u squares, %u of them read\n", (unsigned)done, (unsigned)refused,
		       (unsigned)lacking, (unsigned)wrong_settings, (unsigned)squares, (unsigned)squares_read);
	return 0;
}
