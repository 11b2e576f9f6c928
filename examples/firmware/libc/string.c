/* Whole words are copied and set where the addresses allow it. Compile this file with -fno-tree-loop-distribute-patterns: otherwise
 * gcc makes each of these loops a call of the function that it is in. */
#include "string.h"
#include <stdint.h>

typedef uint32_t __attribute__((may_alias)) word;

void *memcpy(void *to, const void *from, size_t count)
{
	uint8_t *at = to;
	const uint8_t *it = from;

	if ((((uintptr_t)at | (uintptr_t)it) & 3) == 0)
		for (; count >= 4; count -= 4, at += 4, it += 4)
			*(word *)at = *(const word *)it;
	while (count--)
		*at++ = *it++;
	return to;
}

void *memmove(void *to, const void *from, size_t count)
{
	uint8_t *at = to;
	const uint8_t *it = from;

	if ((uintptr_t)at - (uintptr_t)it >= count)
		return memcpy(to, from, count); /* no byte is written before it is read */
	while (count--)
		at[count] = it[count];
	return to;
}

void *memset(void *to, int byte, size_t count)
{
	uint8_t *at = to;

	for (; count && (uintptr_t)at & 3; count--)
		*at++ = (uint8_t)byte;
	for (; count >= 4; count -= 4, at += 4)
		*(word *)at = (uint8_t)byte * 0x01010101u;
	while (count--)
		*at++ = (uint8_t)byte;
	return to;
}

int memcmp(const void *one, const void *other, size_t count)
{
	const uint8_t *a = one, *b = other;

	for (; count; count--, a++, b++)
		if (*a != *b)
			return *a - *b;
	return 0;
}
