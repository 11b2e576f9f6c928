/* What the code below needs of the machine. Numbers are in memory with the lowest byte first, on every machine, and a pointer
 * takes eight bytes there, of which the machine uses as many as its pointers have. */
#include <stddef.h>
#include <stdint.h>
#include <string.h>

#if defined(__BYTE_ORDER__) && defined(__ORDER_LITTLE_ENDIAN__)
#define IS_LITTLE (__BYTE_ORDER__ == __ORDER_LITTLE_ENDIAN__)
#elif defined(_WIN32)
#define IS_LITTLE 1
#else
#define IS_LITTLE 0 /* byte by byte, which is right with every order */
#endif
#if SIZE_MAX < 0xFFFFFFFF || -1 >> 1 != -1
#error "sizes have fewer than 32 bits, or a shift to the right does not keep the sign"
#endif
#if defined(__GNUC__)
#define INLINE static inline __attribute__((unused))
#define UNREACHABLE __builtin_unreachable()
#define STOP __builtin_trap() /* the code is proved: none is reached */
#define ALIGNED(p, size) __builtin_assume_aligned(p, size)
#else
#define INLINE static inline
#define UNREACHABLE ((void)0)
#define STOP for (;;)
#define ALIGNED(p, size) (p)
#endif
#define MIN(a, b) ((a) < (b) ? (a) : (b))
#define MAX(a, b) ((a) > (b) ? (a) : (b))

struct heap;

/* Eight bytes of a constant that contains pointers. */
union slot {
	uint8_t b[8];
	const void *p;
	uint64_t align;
};

/* ---- memory: loads and stores at any address, and at one that is a multiple of the size */

INLINE uint64_t load_bytes(const uint8_t *p, int size)
{
	uint64_t n = 0;
	while (size-- > 0)
		n = n << 8 | p[size];
	return n;
}

INLINE void store_bytes(uint8_t *p, uint64_t n, int size)
{
	int k;
	for (k = 0; k < size; k++)
		p[k] = (uint8_t)(n >> 8 * k);
}

#if IS_LITTLE
#define ACCESS(bits, name, at) \
	INLINE uint##bits##_t load_##name(const uint8_t *p) { uint##bits##_t n; memcpy(&n, at, sizeof n); return n; } \
	INLINE void store_##name(uint8_t *p, uint##bits##_t n) { memcpy(at, &n, sizeof n); }
#else
#define ACCESS(bits, name, at) \
	INLINE uint##bits##_t load_##name(const uint8_t *p) { return (uint##bits##_t)load_bytes(p, bits / 8); } \
	INLINE void store_##name(uint8_t *p, uint##bits##_t n) { store_bytes(p, n, bits / 8); }
#endif
ACCESS(16, 16, p)
ACCESS(32, 32, p)
ACCESS(64, 64, p)
ACCESS(16, 16_aligned, ALIGNED(p, 2))
ACCESS(32, 32_aligned, ALIGNED(p, 4))
ACCESS(64, 64_aligned, ALIGNED(p, sizeof(void *))) /* some machines of 32 bits align such numbers to 4 */

INLINE uint8_t load_8(const uint8_t *p) { return *p; }
INLINE void store_8(uint8_t *p, uint8_t n) { *p = n; }

INLINE uint8_t *load_pointer(const uint8_t *p)
{
	uint8_t *it;
	memcpy(&it, ALIGNED(p, sizeof it), sizeof it);
	return it;
}

INLINE void store_pointer(uint8_t *p, uint8_t *it) { memcpy(ALIGNED(p, sizeof it), &it, sizeof it); }

/* Without a byte to copy or to set, the pointers may be to nothing, which the functions of C do not allow. */
INLINE void copy(uint8_t *to, const uint8_t *from, uint64_t count)
{
	if (count)
		memcpy(to, from, (size_t)count);
}

INLINE void move(uint8_t *to, const uint8_t *from, uint64_t count)
{
	if (count)
		memmove(to, from, (size_t)count);
}

INLINE void fill(uint8_t *to, uint8_t byte, uint64_t count)
{
	if (count)
		memset(to, byte, (size_t)count);
}

/* ---- numbers of 8 to 64 bits: bits that are set; zeros before the first and after the last of them; the other order of bytes, of
 * bits; and the upper or lower half of two numbers that are joined and shifted */

/* Adds the bits of each four: the sums are numbers of four bits, as are those of two such words. */
INLINE uint32_t ones_of_fours(uint32_t n)
{
	n -= n >> 1 & 0x55555555u;
	return (n & 0x33333333u) + (n >> 2 & 0x33333333u);
}

INLINE uint32_t sum_of_fours(uint32_t n) { return ((n & 0x0F0F0F0Fu) + (n >> 4 & 0x0F0F0F0Fu)) * 0x01010101u >> 24; }

#if defined(__clang__) || defined(__POPCNT__) /* gcc would call a function */
INLINE uint64_t ones_64(uint64_t n) { return (uint64_t)__builtin_popcountll(n); }
INLINE uint32_t ones_32(uint32_t n) { return (uint32_t)__builtin_popcount(n); }
#else
#if SIZE_MAX > 0xFFFFFFFF
INLINE uint64_t ones_64(uint64_t n)
{
	n -= n >> 1 & 0x5555555555555555u;
	n = (n & 0x3333333333333333u) + (n >> 2 & 0x3333333333333333u);
	return ((n + (n >> 4)) & 0x0F0F0F0F0F0F0F0Fu) * 0x0101010101010101u >> 56;
}
#else
INLINE uint64_t ones_64(uint64_t n) { return sum_of_fours(ones_of_fours((uint32_t)n) + ones_of_fours((uint32_t)(n >> 32))); }
#endif

INLINE uint32_t ones_32(uint32_t n) { return sum_of_fours(ones_of_fours(n)); }
#endif

#if defined(__GNUC__)
INLINE uint32_t leading_32(uint32_t n) { return n ? (uint32_t)__builtin_clz(n) : 32; }
INLINE uint32_t trailing_32(uint32_t n) { return n ? (uint32_t)__builtin_ctz(n) : 32; }
#else
INLINE uint32_t leading_32(uint32_t n)
{
	int k;
	for (k = 1; k < 32; k *= 2)
		n |= n >> k;
	return 32 - ones_32(n);
}

INLINE uint32_t trailing_32(uint32_t n) { return n ? ones_32((n & (0 - n)) - 1) : 32; }
#endif

#if defined(__GNUC__) && SIZE_MAX > 0xFFFFFFFF
INLINE uint64_t leading_64(uint64_t n) { return n ? (uint64_t)__builtin_clzll(n) : 64; }
INLINE uint64_t trailing_64(uint64_t n) { return n ? (uint64_t)__builtin_ctzll(n) : 64; }
#else /* by halves, for which a machine of 32 bits has instructions */
INLINE uint64_t leading_64(uint64_t n) { return n >> 32 ? leading_32((uint32_t)(n >> 32)) : 32 + leading_32((uint32_t)n); }
INLINE uint64_t trailing_64(uint64_t n) { return (uint32_t)n ? trailing_32((uint32_t)n) : 32 + trailing_32((uint32_t)(n >> 32)); }
#endif

INLINE uint16_t swapped_16(uint16_t n) { return (uint16_t)(n << 8 | n >> 8); }
INLINE uint32_t swapped_32(uint32_t n) { return (uint32_t)swapped_16((uint16_t)n) << 16 | swapped_16((uint16_t)(n >> 16)); }
INLINE uint64_t swapped_64(uint64_t n) { return (uint64_t)swapped_32((uint32_t)n) << 32 | swapped_32((uint32_t)(n >> 32)); }

INLINE uint64_t reversed_64(uint64_t n)
{
	n = (n & 0x5555555555555555u) << 1 | (n >> 1 & 0x5555555555555555u);
	n = (n & 0x3333333333333333u) << 2 | (n >> 2 & 0x3333333333333333u);
	n = (n & 0x0F0F0F0F0F0F0F0Fu) << 4 | (n >> 4 & 0x0F0F0F0F0F0F0F0Fu);
	return swapped_64(n);
}

#define SHIFTED(bits) \
	INLINE uint##bits##_t left_##bits(uint##bits##_t upper, uint##bits##_t lower, uint##bits##_t count) \
	{ count &= bits - 1; return (uint##bits##_t)(count ? upper << count | lower >> (bits - count) : upper); } \
	INLINE uint##bits##_t right_##bits(uint##bits##_t upper, uint##bits##_t lower, uint##bits##_t count) \
	{ count &= bits - 1; return (uint##bits##_t)(count ? upper << (bits - count) | lower >> count : lower); }
SHIFTED(8)
SHIFTED(16)
SHIFTED(32)
SHIFTED(64)

/* ---- numbers of 128 bits */

typedef struct { uint64_t low, high; } wide;

INLINE wide wide_make(uint64_t high, uint64_t low)
{
	wide n;
	n.low = low, n.high = high;
	return n;
}

INLINE wide wide_of(uint64_t n) { return wide_make(0, n); }
INLINE wide wide_signed(int64_t n) { return wide_make(n < 0 ? ~(uint64_t)0 : 0, (uint64_t)n); }
INLINE uint64_t wide_low(wide n) { return n.low; }
INLINE wide wide_and(wide a, wide b) { return wide_make(a.high & b.high, a.low & b.low); }
INLINE wide wide_or(wide a, wide b) { return wide_make(a.high | b.high, a.low | b.low); }
INLINE wide wide_xor(wide a, wide b) { return wide_make(a.high ^ b.high, a.low ^ b.low); }
INLINE wide wide_sub(wide a, wide b) { return wide_make(a.high - b.high - (a.low < b.low), a.low - b.low); }

INLINE wide wide_add(wide a, wide b)
{
	uint64_t low = a.low + b.low;
	return wide_make(a.high + b.high + (low < a.low), low);
}

/* Multiplies by halves of words: each product of two halves fits a word, and so does the sum of two halves and a product. */
INLINE wide wide_mul(wide a, wide b)
{
	uint64_t half = 0xFFFFFFFF, a0 = a.low & half, a1 = a.low >> 32, b0 = b.low & half, b1 = b.low >> 32;
	uint64_t first = a0 * b0, second = a1 * b0 + (first >> 32), third = a0 * b1 + (second & half);
	uint64_t high = a1 * b1 + (second >> 32) + (third >> 32);
	return wide_make(high + a.low * b.high + a.high * b.low, third << 32 | (first & half));
}

INLINE wide wide_shl(wide a, wide count)
{
	uint64_t k = count.low & 127;
	if (k >= 64)
		return wide_make(a.low << (k - 64), 0);
	return k ? wide_make(a.high << k | a.low >> (64 - k), a.low << k) : a;
}

INLINE wide wide_lshr(wide a, wide count)
{
	uint64_t k = count.low & 127;
	if (k >= 64)
		return wide_make(0, a.high >> (k - 64));
	return k ? wide_make(a.high >> k, a.low >> k | a.high << (64 - k)) : a;
}

INLINE wide wide_ashr(wide a, wide count)
{
	uint64_t k = count.low & 127, sign = wide_signed((int64_t)a.high).high;
	wide n = wide_lshr(a, count);
	return k ? wide_or(n, wide_shl(wide_make(sign, sign), wide_of(128 - k))) : n;
}

INLINE int wide_compare(wide a, wide b)
{
	return a.high != b.high ? (a.high > b.high) - (a.high < b.high) : (a.low > b.low) - (a.low < b.low);
}

INLINE wide left_128(wide upper, wide lower, wide count)
{
	uint64_t k = count.low & 127;
	return k ? wide_or(wide_shl(upper, wide_of(k)), wide_lshr(lower, wide_of(128 - k))) : upper;
}

INLINE wide right_128(wide upper, wide lower, wide count)
{
	uint64_t k = count.low & 127;
	return k ? wide_or(wide_shl(upper, wide_of(128 - k)), wide_lshr(lower, wide_of(k))) : lower;
}

INLINE wide load_128(const uint8_t *p) { return wide_make(load_64(p + 8), load_64(p)); }

INLINE void store_128(uint8_t *p, wide n)
{
	store_64(p, n.low);
	store_64(p + 8, n.high);
}

