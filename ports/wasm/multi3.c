/* The product of two numbers of 128 bits, modulo 2 to the power of 128, by which compiled code multiplies numbers of 64 bits where it has to
 * know whether the product fits. WebAssembly has no instruction for it, and the kit no library. Each number is given by its halves, the lower
 * one first. */
typedef __UINT64_TYPE__ uint64_t;

unsigned __int128 __multi3(uint64_t a, uint64_t a_high, uint64_t b, uint64_t b_high)
{
	uint64_t low = 0xffffffff, first = (a & low) * (b & low);
	uint64_t second = (a >> 32) * (b & low) + (first >> 32), third = (a & low) * (b >> 32) + (second & low);
	uint64_t high = (a >> 32) * (b >> 32) + (second >> 32) + (third >> 32) + a * b_high + a_high * b;
	return (unsigned __int128)high << 64 | third << 32 | (first & low);
}
