/* What compiled Rattle takes of the heap, by malloc: for targets for which the kit has no such glue. The kit's contracts of
 * these calls, which the proofs rest on, ask that no alignment is above 16, and that each block is aligned as asked.
 * malloc aligns a block for every type that fits in it, and a size is a multiple of its alignment. */
#include <stdint.h>
#include <stdlib.h>

/* Whether there is a block, and where; if there is none, the pointer is to a byte that nobody uses, since it may not be null. */
struct tried {
	uint64_t ok;
	void *block;
};

static struct tried tried(void *block)
{
	static unsigned char nothing;
	return (struct tried){block != NULL, block ? block : &nothing};
}

/* A block of no size is one of a unit of its alignment: malloc(0) may return NULL, and realloc(p, 0) may free. */
struct tried rattle_alloc(size_t size, size_t alignment) { return tried(malloc(size ? size : alignment)); }

struct tried rattle_realloc(void *old, size_t old_size, size_t size, size_t alignment)
{
	(void)old_size;
	return tried(realloc(old, size ? size : alignment));
}

void rattle_dealloc(void *block) { free(block); }
