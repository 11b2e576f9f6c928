/* ---- the heap of a call */

#ifndef QRPROVED_NO_MALLOC
#include <stdlib.h>
#endif

/* Where a call takes its memory: from malloc if `end` is NULL, and otherwise from its caller's memory. There a block begins where the
 * last one ended. Only the last block grows where it is; another one that grows is copied. Without heads only the last block is given
 * back before the call ends. With heads each block is, as soon as all blocks after it are. */
struct heap {
	uint8_t *next; /* where the next block begins, a multiple of BLOCK */
	uint8_t *end;
	uint8_t *last; /* the last block */
	int has_heads;
};

/* What stands before a block of a heap with heads, in BLOCK bytes. */
struct head {
	uint8_t *before; /* the block before it, or NULL */
	size_t is_free;
};

enum { BLOCK = 16 }; /* bytes: no block is aligned to more */

#define BYTES(p) ((uint8_t *)(uintptr_t)(const void *)(p))

static const uint8_t NOTHING = 0; /* a byte that nobody uses, for pointers that may not be null */

/* Whether there is a block, and where. */
static struct s2_i64_i64 tried(const uint8_t *block)
{
	struct s2_i64_i64 it;
	it.f0 = block != NULL;
	it.f1 = (uint64_t)(uintptr_t)(block ? block : &NOTHING);
	return it;
}

/* Returns the block of so many bytes that begins at an address of the caller's memory, or NULL if the memory is too short. */
static uint8_t *block_at(struct heap *heap, uint8_t *start, uint64_t size)
{
	size_t left = (size_t)(heap->end - start), whole;
	if (size > left)
		return NULL;
	whole = ((size_t)size + BLOCK - 1) / BLOCK * BLOCK;
	heap->next = start + (whole < left ? whole : left);
	heap->last = start;
	return start;
}

static struct head head_of(const uint8_t *block)
{
	struct head head;
	copy(BYTES(&head), BYTES(block) - BLOCK, sizeof head);
	return head;
}

static void set_head(uint8_t *block, uint8_t *before, size_t is_free)
{
	struct head head;
	head.before = before;
	head.is_free = is_free;
	copy(block - BLOCK, BYTES(&head), sizeof head);
}

/* Returns a new block, or NULL. */
static uint8_t *next_block(struct heap *heap, uint64_t size)
{
	uint8_t *before = heap->last, *block;
	if (!heap->has_heads)
		return block_at(heap, heap->next, size);
	if ((size_t)(heap->end - heap->next) < BLOCK)
		return NULL;
	block = block_at(heap, heap->next + BLOCK, size);
	if (block)
		set_head(block, before, 0);
	return block;
}

/* Takes a block back, and with heads each block before it that was given back earlier. */
static void take_back(struct heap *heap, uint8_t *block)
{
	if (!heap->has_heads) {
		if (block == heap->last)
			heap->next = block;
		return;
	}
	set_head(block, head_of(block).before, 1);
	while (heap->last && head_of(heap->last).is_free) {
		heap->next = heap->last - BLOCK;
		heap->last = head_of(heap->last).before;
	}
}

/* A block of no size is one of a unit of its alignment, so that no two blocks are at the same address. */
static struct s2_i64_i64 m_rattle_alloc(struct heap *heap, uint64_t size, uint64_t alignment)
{
	size = size ? size : alignment;
#ifndef QRPROVED_NO_MALLOC
	if (!heap->end)
		return tried(size > SIZE_MAX ? NULL : malloc((size_t)size));
#endif
	return tried(next_block(heap, size));
}

/* If there is no room, the old block stays. */
static struct s2_i64_i64 m_rattle_realloc(struct heap *heap, uint8_t *old, uint64_t old_size, uint64_t size, uint64_t alignment)
{
	uint8_t *block;
	size = size ? size : alignment;
#ifndef QRPROVED_NO_MALLOC
	if (!heap->end)
		return tried(size > SIZE_MAX ? NULL : realloc(old, (size_t)size));
#endif
	if (old == heap->last)
		return tried(block_at(heap, old, size));
	block = next_block(heap, size);
	if (block) {
		copy(block, old, MIN(old_size, size));
		if (heap->has_heads)
			take_back(heap, old);
	}
	return tried(block);
}

static void m_rattle_dealloc(struct heap *heap, uint8_t *block)
{
#ifndef QRPROVED_NO_MALLOC
	if (!heap->end) {
		free(block);
		return;
	}
#endif
	take_back(heap, block);
}

/* Returns the heap of a call whose caller has passed memory, perhaps none. */
static struct heap heap_of(void *memory, size_t memory_len)
{
	struct heap heap;
	uint8_t *start = memory_len ? memory : BYTES(&NOTHING);
	size_t before = (BLOCK - (size_t)((uintptr_t)start % BLOCK)) % BLOCK;
	heap.end = start + memory_len;
	heap.next = start + (before < memory_len ? before : memory_len);
	heap.last = NULL;
	heap.has_heads = 0;
	return heap;
}

/* ---- the calls of qrproved.h, each with a heap, and then with the caller's memory and with malloc */

/* The numbers of a struct are written with the lowest byte first, and the machine may have another order. */
static void turn_64(uint64_t *n) { *n = load_64(BYTES(n)); }
static void turn_32(uint32_t *n) { *n = load_32(BYTES(n)); }

static void turn_ecis(struct qrproved_eci *ecis, size_t ecis_len, uint64_t count)
{
	size_t k;
	for (k = 0; k < ecis_len && k < count; k++) {
		turn_64(&ecis[k].begin);
		turn_32(&ecis[k].number);
	}
}

static uint8_t read_by(struct heap *heap, const uint8_t *modules, size_t modules_len, uint32_t side, uint8_t *bytes, size_t bytes_len,
                       struct qrproved_eci *ecis, size_t ecis_len, struct qrproved_content *content)
{
	uint8_t status = m_qrproved_read(heap, BYTES(modules), modules_len, side, bytes, bytes_len, BYTES(ecis), ecis_len, BYTES(content));
	if (!IS_LITTLE && status == QRPROVED_DONE) {
		turn_64(&content->len);
		turn_64(&content->eci_count);
		turn_ecis(ecis, ecis_len, content->eci_count);
	}
	return status;
}

static uint8_t mend_by(struct heap *heap, const uint8_t *modules, size_t modules_len, uint32_t side, uint8_t *bytes, size_t bytes_len,
                       struct qrproved_eci *ecis, size_t ecis_len, struct qrproved_mended *mended)
{
	uint8_t status = m_qrproved_mend(heap, BYTES(modules), modules_len, side, bytes, bytes_len, BYTES(ecis), ecis_len, BYTES(mended));
	if (!IS_LITTLE && status == QRPROVED_DONE) {
		turn_64(&mended->len);
		turn_64(&mended->eci_count);
		turn_32(&mended->wrong_modules);
		turn_ecis(ecis, ecis_len, mended->eci_count);
	}
	return status;
}

static uint8_t find_by(struct heap *heap, const uint8_t *pixels, size_t pixels_len, uint32_t width, uint32_t height, uint32_t stride,
                       uint32_t unread, uint8_t *modules, size_t modules_len, struct qrproved_found *found, size_t found_len, size_t *count)
{
	union slot len = {{0}};
	uint8_t status = m_qrproved_find(heap, BYTES(pixels), pixels_len, width, height, stride, unread, modules, modules_len, BYTES(found),
	                                 found_len, len.b);
	size_t k;
	if (status != QRPROVED_DONE)
		return status;
	*count = (size_t)load_64(len.b);
	for (k = 0; !IS_LITTLE && k < *count; k++) {
		turn_32(&found[k].x0), turn_32(&found[k].y0), turn_32(&found[k].x1), turn_32(&found[k].y1);
		turn_32(&found[k].x2), turn_32(&found[k].y2), turn_32(&found[k].x3), turn_32(&found[k].y3);
		turn_32(&found[k].side);
	}
	return status;
}

/* The length of a drawing or document is written as a number of 64 bits, and only with these two statuses. */
static uint8_t draw_by(struct heap *heap, const uint8_t *modules, size_t modules_len, uint32_t side, uint32_t count, uint32_t drawing,
                       uint32_t margin, uint8_t *text, size_t text_len, size_t *written)
{
	union slot len = {{0}};
	uint8_t status = m_qrproved_draw(heap, BYTES(modules), modules_len, side, count, drawing, margin, text, text_len, len.b);
	if (status == QRPROVED_DONE || status == QRPROVED_ROOM)
		*written = (size_t)load_64(len.b);
	return status;
}

static uint8_t document_by(struct heap *heap, const uint8_t *modules, size_t modules_len, uint32_t side, uint32_t count, uint32_t format,
                           uint32_t margin, uint32_t micrometres, uint8_t *text, size_t text_len, size_t *written)
{
	union slot len = {{0}};
	uint8_t status = m_qrproved_document(heap, BYTES(modules), modules_len, side, count, format, margin, micrometres, text, text_len, len.b);
	if (status == QRPROVED_DONE || status == QRPROVED_ROOM)
		*written = (size_t)load_64(len.b);
	return status;
}

static uint8_t pdf_by(struct heap *heap, const uint8_t *modules, size_t modules_len, uint32_t side, uint32_t count, uint32_t margin,
                      uint32_t micrometres, uint32_t dark, uint32_t light, uint8_t *text, size_t text_len, size_t *written)
{
	union slot len = {{0}};
	uint8_t status = m_qrproved_pdf(heap, BYTES(modules), modules_len, side, count, margin, micrometres, dark, light, text, text_len, len.b);
	if (status == QRPROVED_DONE || status == QRPROVED_ROOM)
		*written = (size_t)load_64(len.b);
	return status;
}

/* The numbers of a struct are read with the lowest byte first. */
static uint8_t sheets_by(struct heap *heap, const uint8_t *modules, size_t modules_len, uint32_t side, uint32_t count, uint32_t margin,
                         uint32_t micrometres, const struct qrproved_sheet *sheet, uint8_t *text, size_t text_len, size_t *written)
{
	union slot len = {{0}};
	struct qrproved_sheet turned = *sheet;
	uint8_t status;
	if (!IS_LITTLE) {
		turn_32(&turned.width), turn_32(&turned.height), turn_32(&turned.left), turn_32(&turned.top), turn_32(&turned.across);
		turn_32(&turned.down), turn_32(&turned.columns), turn_32(&turned.rows), turn_32(&turned.first);
	}
	status = m_qrproved_sheets(heap, BYTES(modules), modules_len, side, count, margin, micrometres, BYTES(&turned), text, text_len, len.b);
	if (status == QRPROVED_DONE || status == QRPROVED_ROOM)
		*written = (size_t)load_64(len.b);
	return status;
}

uint32_t qrproved_version(void) { return m_qrproved_version(); }

/* The three calls take no memory. */
uint8_t qrproved_image(const uint8_t *modules, size_t modules_len, uint32_t side, uint32_t format, uint32_t scale, uint32_t margin,
                       uint32_t pixels_a_metre, uint32_t left, uint32_t top, uint8_t *image, size_t image_len, size_t *written)
{
	union slot len = {{0}};
	uint8_t status = m_qrproved_image(BYTES(modules), modules_len, side, format, scale, margin, pixels_a_metre, left, top, image,
	                                  image_len, len.b);
	if (status == QRPROVED_DONE || status == QRPROVED_ROOM)
		*written = (size_t)load_64(len.b);
	return status;
}

uint8_t qrproved_png(const uint8_t *modules, size_t modules_len, uint32_t side, uint32_t scale, uint32_t margin,
                     uint32_t pixels_a_metre, uint32_t dark, uint32_t light, uint8_t *image, size_t image_len, size_t *written)
{
	union slot len = {{0}};
	uint8_t status = m_qrproved_png(BYTES(modules), modules_len, side, scale, margin, pixels_a_metre, dark, light, image, image_len,
	                                len.b);
	if (status == QRPROVED_DONE || status == QRPROVED_ROOM)
		*written = (size_t)load_64(len.b);
	return status;
}

uint8_t qrproved_draw_row(const uint8_t *bits, size_t bits_len, uint32_t side, uint32_t drawing, uint32_t margin, uint32_t row,
                          uint8_t *text, size_t text_len, size_t *written)
{
	union slot len = {{0}};
	uint8_t status = m_qrproved_draw_row(BYTES(bits), bits_len, side, drawing, margin, row, text, text_len, len.b);
	if (status == QRPROVED_DONE || status == QRPROVED_ROOM)
		*written = (size_t)load_64(len.b);
	return status;
}

uint8_t qrproved_room(uint32_t version, uint32_t level, uint32_t mode, uint32_t interpretation, uint32_t header, uint32_t *count)
{
	uint8_t status = m_qrproved_room(version, level, mode, interpretation, header, BYTES(count));
	if (!IS_LITTLE && status == QRPROVED_DONE)
		turn_32(count);
	return status;
}

uint8_t qrproved_encode_in(void *memory, size_t memory_len, const uint8_t *input, size_t input_len, uint32_t version, uint32_t level,
                           uint32_t rule, uint32_t interpretation, uint32_t boost, uint8_t *modules, size_t modules_len,
                           struct qrproved_symbol *symbol)
{
	struct heap heap = heap_of(memory, memory_len);
	return m_qrproved_encode(&heap, BYTES(input), input_len, version, level, rule, interpretation, boost, modules, modules_len,
	                         BYTES(symbol));
}

uint8_t qrproved_encode_bits_in(void *memory, size_t memory_len, const uint8_t *input, size_t input_len, uint32_t version,
                                uint32_t level, uint32_t rule, uint32_t interpretation, uint32_t boost, uint8_t *bits, size_t bits_len,
                                struct qrproved_symbol *symbol)
{
	struct heap heap = heap_of(memory, memory_len);
	return m_qrproved_encode_bits(&heap, BYTES(input), input_len, version, level, rule, interpretation, boost, bits, bits_len,
	                              BYTES(symbol));
}

/* The input is cut into segments several times, and each time has to give its memory back. */
uint8_t qrproved_encode_logo_in(void *memory, size_t memory_len, const uint8_t *input, size_t input_len, uint32_t version,
                                uint32_t level, uint32_t rule, uint32_t interpretation, uint32_t logo, uint32_t share, uint8_t *modules,
                                size_t modules_len, struct qrproved_symbol *symbol, uint8_t *largest)
{
	struct heap heap = heap_of(memory, memory_len);
	heap.has_heads = 1;
	return m_qrproved_encode_logo(&heap, BYTES(input), input_len, version, level, rule, interpretation, logo, share, modules, modules_len,
	                              BYTES(symbol), largest);
}

uint8_t qrproved_encode_series_in(void *memory, size_t memory_len, const uint8_t *input, size_t input_len, uint32_t version,
                                  uint32_t level, uint32_t rule, uint32_t interpretation, uint8_t *modules, size_t modules_len,
                                  struct qrproved_series *series)
{
	struct heap heap = heap_of(memory, memory_len);
	return m_qrproved_encode_series(&heap, BYTES(input), input_len, version, level, rule, interpretation, modules, modules_len,
	                                BYTES(series));
}

uint8_t qrproved_set_mask_in(void *memory, size_t memory_len, uint8_t *modules, size_t modules_len, uint32_t side, uint32_t mask)
{
	struct heap heap = heap_of(memory, memory_len);
	return m_qrproved_set_mask(&heap, modules, modules_len, side, mask);
}

uint8_t qrproved_read_in(void *memory, size_t memory_len, const uint8_t *modules, size_t modules_len, uint32_t side, uint8_t *bytes,
                         size_t bytes_len, struct qrproved_eci *ecis, size_t ecis_len, struct qrproved_content *content)
{
	struct heap heap = heap_of(memory, memory_len);
	return read_by(&heap, modules, modules_len, side, bytes, bytes_len, ecis, ecis_len, content);
}

uint8_t qrproved_mend_in(void *memory, size_t memory_len, const uint8_t *modules, size_t modules_len, uint32_t side, uint8_t *bytes,
                         size_t bytes_len, struct qrproved_eci *ecis, size_t ecis_len, struct qrproved_mended *mended)
{
	struct heap heap = heap_of(memory, memory_len);
	return mend_by(&heap, modules, modules_len, side, bytes, bytes_len, ecis, ecis_len, mended);
}

uint8_t qrproved_draw_in(void *memory, size_t memory_len, const uint8_t *modules, size_t modules_len, uint32_t side, uint32_t count,
                         uint32_t drawing, uint32_t margin, uint8_t *text, size_t text_len, size_t *written)
{
	struct heap heap = heap_of(memory, memory_len);
	return draw_by(&heap, modules, modules_len, side, count, drawing, margin, text, text_len, written);
}

uint8_t qrproved_document_in(void *memory, size_t memory_len, const uint8_t *modules, size_t modules_len, uint32_t side, uint32_t count,
                             uint32_t format, uint32_t margin, uint32_t micrometres, uint8_t *text, size_t text_len, size_t *written)
{
	struct heap heap = heap_of(memory, memory_len);
	return document_by(&heap, modules, modules_len, side, count, format, margin, micrometres, text, text_len, written);
}

uint8_t qrproved_pdf_in(void *memory, size_t memory_len, const uint8_t *modules, size_t modules_len, uint32_t side, uint32_t count,
                        uint32_t margin, uint32_t micrometres, uint32_t dark, uint32_t light, uint8_t *text, size_t text_len,
                        size_t *written)
{
	struct heap heap = heap_of(memory, memory_len);
	return pdf_by(&heap, modules, modules_len, side, count, margin, micrometres, dark, light, text, text_len, written);
}

uint8_t qrproved_sheets_in(void *memory, size_t memory_len, const uint8_t *modules, size_t modules_len, uint32_t side, uint32_t count,
                           uint32_t margin, uint32_t micrometres, const struct qrproved_sheet *sheet, uint8_t *text, size_t text_len,
                           size_t *written)
{
	struct heap heap = heap_of(memory, memory_len);
	return sheets_by(&heap, modules, modules_len, side, count, margin, micrometres, sheet, text, text_len, written);
}

uint8_t qrproved_parse_drawing_in(void *memory, size_t memory_len, const uint8_t *text, size_t text_len, uint8_t *modules,
                                  size_t modules_len, struct qrproved_drawn *drawn)
{
	struct heap heap = heap_of(memory, memory_len);
	return m_qrproved_parse_drawing(&heap, BYTES(text), text_len, modules, modules_len, BYTES(drawn));
}

/* A search mends many squares, one after the other, so each has to give its memory back. */
uint8_t qrproved_find_in(void *memory, size_t memory_len, const uint8_t *pixels, size_t pixels_len, uint32_t width, uint32_t height,
                         uint32_t stride, uint32_t unread, uint8_t *modules, size_t modules_len, struct qrproved_found *found,
                         size_t found_len, size_t *count)
{
	struct heap heap = heap_of(memory, memory_len);
	heap.has_heads = 1;
	return find_by(&heap, pixels, pixels_len, width, height, stride, unread, modules, modules_len, found, found_len, count);
}

#ifndef QRPROVED_NO_MALLOC
static const struct heap SYSTEM = {NULL, NULL, NULL, 0};

uint8_t qrproved_encode(const uint8_t *input, size_t input_len, uint32_t version, uint32_t level, uint32_t rule,
                        uint32_t interpretation, uint32_t boost, uint8_t *modules, size_t modules_len, struct qrproved_symbol *symbol)
{
	struct heap heap = SYSTEM;
	return m_qrproved_encode(&heap, BYTES(input), input_len, version, level, rule, interpretation, boost, modules, modules_len,
	                         BYTES(symbol));
}

uint8_t qrproved_encode_bits(const uint8_t *input, size_t input_len, uint32_t version, uint32_t level, uint32_t rule,
                             uint32_t interpretation, uint32_t boost, uint8_t *bits, size_t bits_len, struct qrproved_symbol *symbol)
{
	struct heap heap = SYSTEM;
	return m_qrproved_encode_bits(&heap, BYTES(input), input_len, version, level, rule, interpretation, boost, bits, bits_len,
	                              BYTES(symbol));
}

uint8_t qrproved_encode_logo(const uint8_t *input, size_t input_len, uint32_t version, uint32_t level, uint32_t rule,
                             uint32_t interpretation, uint32_t logo, uint32_t share, uint8_t *modules, size_t modules_len,
                             struct qrproved_symbol *symbol, uint8_t *largest)
{
	struct heap heap = SYSTEM;
	return m_qrproved_encode_logo(&heap, BYTES(input), input_len, version, level, rule, interpretation, logo, share, modules, modules_len,
	                              BYTES(symbol), largest);
}

uint8_t qrproved_encode_series(const uint8_t *input, size_t input_len, uint32_t version, uint32_t level, uint32_t rule,
                               uint32_t interpretation, uint8_t *modules, size_t modules_len, struct qrproved_series *series)
{
	struct heap heap = SYSTEM;
	return m_qrproved_encode_series(&heap, BYTES(input), input_len, version, level, rule, interpretation, modules, modules_len,
	                                BYTES(series));
}

uint8_t qrproved_set_mask(uint8_t *modules, size_t modules_len, uint32_t side, uint32_t mask)
{
	struct heap heap = SYSTEM;
	return m_qrproved_set_mask(&heap, modules, modules_len, side, mask);
}

uint8_t qrproved_read(const uint8_t *modules, size_t modules_len, uint32_t side, uint8_t *bytes, size_t bytes_len,
                      struct qrproved_eci *ecis, size_t ecis_len, struct qrproved_content *content)
{
	struct heap heap = SYSTEM;
	return read_by(&heap, modules, modules_len, side, bytes, bytes_len, ecis, ecis_len, content);
}

uint8_t qrproved_mend(const uint8_t *modules, size_t modules_len, uint32_t side, uint8_t *bytes, size_t bytes_len,
                      struct qrproved_eci *ecis, size_t ecis_len, struct qrproved_mended *mended)
{
	struct heap heap = SYSTEM;
	return mend_by(&heap, modules, modules_len, side, bytes, bytes_len, ecis, ecis_len, mended);
}

uint8_t qrproved_draw(const uint8_t *modules, size_t modules_len, uint32_t side, uint32_t count, uint32_t drawing, uint32_t margin,
                      uint8_t *text, size_t text_len, size_t *written)
{
	struct heap heap = SYSTEM;
	return draw_by(&heap, modules, modules_len, side, count, drawing, margin, text, text_len, written);
}

uint8_t qrproved_document(const uint8_t *modules, size_t modules_len, uint32_t side, uint32_t count, uint32_t format, uint32_t margin,
                          uint32_t micrometres, uint8_t *text, size_t text_len, size_t *written)
{
	struct heap heap = SYSTEM;
	return document_by(&heap, modules, modules_len, side, count, format, margin, micrometres, text, text_len, written);
}

uint8_t qrproved_pdf(const uint8_t *modules, size_t modules_len, uint32_t side, uint32_t count, uint32_t margin,
                     uint32_t micrometres, uint32_t dark, uint32_t light, uint8_t *text, size_t text_len, size_t *written)
{
	struct heap heap = SYSTEM;
	return pdf_by(&heap, modules, modules_len, side, count, margin, micrometres, dark, light, text, text_len, written);
}

uint8_t qrproved_sheets(const uint8_t *modules, size_t modules_len, uint32_t side, uint32_t count, uint32_t margin, uint32_t micrometres,
                        const struct qrproved_sheet *sheet, uint8_t *text, size_t text_len, size_t *written)
{
	struct heap heap = SYSTEM;
	return sheets_by(&heap, modules, modules_len, side, count, margin, micrometres, sheet, text, text_len, written);
}

uint8_t qrproved_parse_drawing(const uint8_t *text, size_t text_len, uint8_t *modules, size_t modules_len, struct qrproved_drawn *drawn)
{
	struct heap heap = SYSTEM;
	return m_qrproved_parse_drawing(&heap, BYTES(text), text_len, modules, modules_len, BYTES(drawn));
}

uint8_t qrproved_find(const uint8_t *pixels, size_t pixels_len, uint32_t width, uint32_t height, uint32_t stride, uint32_t unread,
                      uint8_t *modules, size_t modules_len, struct qrproved_found *found, size_t found_len, size_t *count)
{
	struct heap heap = SYSTEM;
	return find_by(&heap, pixels, pixels_len, width, height, stride, unread, modules, modules_len, found, found_len, count);
}
#endif
