/* What the library takes of the heap as WebAssembly. Each block begins where the last one ended, and none is freed by itself: a
 * call of the library frees all that it takes before it returns, and the caller gives back everything by heap_reset before it
 * takes the buffers of its next call by heap_take. (A search for symbols mends some squares, one after the other. In the pictures that
 * were tried it took up to 15 MB for them. If blocks were freed, the module would have 7,000 bytes more.) ports/heap.c says what the
 * kit's contracts ask of blocks. */
typedef __SIZE_TYPE__ size_t; /* the kit's clang has no headers */
typedef __UINT64_TYPE__ uint64_t;

#define PAGE 65536ULL
#define MOST (65535 * PAGE) /* bytes: addresses have 32 bits in the end */

/* Whether there is a block, and where; if there is none, the pointer is to a byte that nobody uses, since it may not be null. */
struct tried {
	uint64_t ok;
	void *block;
};

extern unsigned char __heap_base; /* from the linker: the first byte after the stack and the data */
static uint64_t top;              /* the end of the last block; 0 before the first one */

/* Returns the address of a block, or 0 if the engine refuses to let the memory grow. Whether it grew is seen by its size, since
 * the number for a refusal is another one where addresses have 32 bits. */
static uint64_t take(uint64_t size, uint64_t alignment)
{
	uint64_t start = top ? top : (uint64_t)&__heap_base;
	uint64_t block = (start + alignment - 1) & ~(alignment - 1);
	uint64_t have = __builtin_wasm_memory_size(0) * PAGE;
	if (block > MOST || size > MOST - block)
		return 0;
	if (block + size > have) {
		__builtin_wasm_memory_grow(0, (block + size - have + PAGE - 1) / PAGE);
		if (block + size > __builtin_wasm_memory_size(0) * PAGE)
			return 0;
	}
	top = block + size;
	return block;
}

static struct tried tried(uint64_t block)
{
	static unsigned char nothing;
	return (struct tried){block != 0, block ? (void *)block : &nothing};
}

void heap_reset(void) { top = 0; }

/* Returns a buffer that is aligned for every type; or NULL. */
void *heap_take(uint64_t size) { return (void *)take(size ? size : 1, 16); }

/* A block of no size is one of a unit of its alignment, so that no two blocks are at the same address. */
struct tried rattle_alloc(size_t size, size_t alignment) { return tried(take(size ? size : alignment, alignment)); }

/* The last block grows or shrinks where it is; another one is copied. If there is no room, the old block stays. */
struct tried rattle_realloc(void *old, size_t old_size, size_t size, size_t alignment)
{
	uint64_t before = top, block;
	int is_last = (uint64_t)old + old_size == top;
	if (is_last)
		top = (uint64_t)old;
	block = take(size ? size : alignment, alignment);
	if (!block)
		top = before;
	else if (!is_last)
		__builtin_memcpy((void *)block, old, old_size < size ? old_size : size);
	return tried(block);
}

void rattle_dealloc(void *block) { (void)block; }
