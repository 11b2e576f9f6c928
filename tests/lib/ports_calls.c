/* Calls the glue of ports/ as compiled Rattle does, for tests/ports and tests/aarch64: ports_calls WORD..
 *
 * It tries each alignment that Rattle asks for, from 1 to 16, with sizes that are multiples of it. It tries blocks that
 * grow and shrink, a block that malloc refuses, the arguments of this program, and errno. */
#include <stdint.h>
#include <stdio.h>
#include <stdlib.h>
#include <string.h>

struct tried {
	uint64_t ok;
	unsigned char *block;
};

struct tried rattle_alloc(size_t size, size_t alignment);
struct tried rattle_realloc(void *old, size_t old_size, size_t size, size_t alignment);
void rattle_dealloc(void *block);
int64_t rattle_arg(size_t i, uint8_t *buffer, size_t room);
int rattle_errno(void);
void rattle_set_errno(int error);

enum { MOST = 2048, BLOCKS = 16 };

static void want(const char *name, int is_so, size_t size, size_t alignment)
{
	if (is_so)
		return;
	printf("FAILED: %s: size %zu, alignment %zu\n", name, size, alignment);
	exit(1);
}

static int is_aligned(const struct tried *it, size_t alignment) { return it->ok == 1 && (uintptr_t)it->block % alignment == 0; }

static void of_heap(size_t alignment)
{
	struct tried all[BLOCKS];
	for (size_t size = 0; size <= MOST; size += alignment) {
		for (size_t k = 0; k < BLOCKS; k++) {
			all[k] = rattle_alloc(size, alignment);
			want("a block is aligned", is_aligned(&all[k], alignment), size, alignment);
			memset(all[k].block, (int)(k + size), size);
		}
		for (size_t k = 0; k < BLOCKS; k++) {
			size_t grown = k % 2 ? 3 * size + alignment : size / alignment / 2 * alignment, kept = grown < size ? grown : size;
			all[k] = rattle_realloc(all[k].block, size, grown, alignment);
			want("a block that grew is aligned", is_aligned(&all[k], alignment), grown, alignment);
			for (size_t i = 0; i < kept; i++)
				want("a block keeps its bytes", all[k].block[i] == (unsigned char)(k + size), size, alignment);
			memset(all[k].block, 1, grown);
		}
		for (size_t k = 0; k < BLOCKS; k++)
			rattle_dealloc(all[k].block);
	}
}

static void of_refusal(void)
{
	struct tried it = rattle_alloc((size_t)1 << 62, 1), old = rattle_alloc(8, 8);
	want("no block", it.ok == 0 && it.block, (size_t)1 << 62, 1);
	want("a block", old.ok == 1, 8, 8);
	memset(old.block, 7, 8);
	it = rattle_realloc(old.block, 8, (size_t)1 << 62, 8);
	want("no larger block", it.ok == 0 && it.block, (size_t)1 << 62, 8);
	want("the old block", old.block[0] == 7 && old.block[7] == 7, 8, 8);
	rattle_dealloc(old.block);
}

static void of_words(int argc, char **argv)
{
	for (int i = 0; i < argc; i++) {
		size_t length = strlen(argv[i]);
		uint8_t *buffer = malloc(length + 1);
		want("memory", buffer != NULL, length, 1);
		buffer[length] = 9;
		want("a word", rattle_arg((size_t)i, buffer, length) == (int64_t)length, length, 1);
		want("its bytes, and no more", !memcmp(buffer, argv[i], length) && buffer[length] == 9, length, 1);
		want("with room left", rattle_arg((size_t)i, buffer, length + 1) == (int64_t)length && buffer[length] == 9, length, 1);
		if (length) {
			buffer[length - 1] = 9;
			want("a word that does not fit", rattle_arg((size_t)i, buffer, length - 1) == -2 && buffer[length - 1] == 9, length, 1);
		}
		free(buffer);
	}
	want("no word after the last one", rattle_arg((size_t)argc, NULL, 0) == -1, 0, 1);
	want("no word far after it", rattle_arg(SIZE_MAX, NULL, 0) == -1, 0, 1);
}

int main(int argc, char **argv)
{
	setvbuf(stdout, NULL, _IONBF, 0);
	for (size_t alignment = 16; alignment; alignment /= 2)
		of_heap(alignment);
	of_refusal();
	of_words(argc, argv);
	rattle_set_errno(5);
	want("errno", rattle_errno() == 5, 0, 1);
	puts("ports: as wanted");
	return 0;
}
