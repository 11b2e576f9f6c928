/* Symbols that zint 2.11.1 printed, for the programs beside this file: the modules row by row as one number in hexadecimal. */
#ifndef LABELS_H
#define LABELS_H

#include <stddef.h>
#include <stdint.h>
#include <string.h>

struct label {
	uint8_t side;
	const char *rows;
};

/* zint --eci=20 -d 0123456789 --secure=3 --seg1=899,'ABC-123 %45' */
static const struct label TWO_ECIS = {25,
    "1fc4b7f82fc20dd32576ebc8bb75dc5d823fa0ff555fc02ce00bdccda2d022c8b91d2cf4689f868f86b924fc752c2a6a30e9b3f8dff008688ff14d6e"
    "0b6a33756bfbbadc51dd13d4e0a3299fcb6e1"};

/* zint --gs1 -d '[10]9NJY[8008]37090120' --secure=2 */
static const struct label FIELDS = {21,
    "1fdd7f82220dd1976eb0bb7555d82d20ff55fc03601176f919efd1999c3a1c10745ca00e867f7ac208e3975a47ba1ad5d08420874dfd061"};

/* Writes the modules of a label, the last first: it is the lowest bit. */
static void put_label(const struct label *label, uint8_t *modules)
{
	size_t area = (size_t)label->side * label->side, len = strlen(label->rows);
	for (size_t i = 0; i < area; i++) {
		char digit = label->rows[len - 1 - i / 4];
		int value = digit <= '9' ? digit - '0' : digit - 'a' + 10;
		modules[area - 1 - i] = (uint8_t)(value >> i % 4 & 1);
	}
}

#endif
