/* Calls ports/everywhere/windows.c as compiled Rattle does, for tests/everywhere: windows_calls WORD..
 *
 * It writes each argument with its length, then what standard input has, and then which error it was to write to a stream that is none. It is
 * compiled without the C library, since the file has functions with names of that. */
#include <stdint.h>

int64_t rattle_arg(uint64_t i, uint8_t *buffer, uint64_t room);
int64_t read(int stream, uint8_t *bytes, uint64_t len);
int64_t write(int stream, const uint8_t *bytes, uint64_t len);
int rattle_errno(void);
void rattle_set_errno(int error);

enum { ROOM = 4000, MARK = 7 };
static uint8_t buffer[ROOM];

static void put(const char *text)
{
	uint64_t length = 0;
	while (text[length])
		length++;
	write(1, (const uint8_t *)text, length);
}

static void put_number(int64_t number)
{
	char digits[24], *at = digits + sizeof digits - 1;
	int64_t left = number < 0 ? -number : number;
	*at = 0;
	do
		*--at = (char)('0' + left % 10);
	while (left /= 10);
	if (number < 0)
		*--at = '-';
	put(at), put(" ");
}

/* Says the length of an argument, what is returned where a byte of room is missing, and whether a byte after it is changed. */
static int put_word(uint64_t i)
{
	int64_t length = rattle_arg(i, buffer, ROOM);
	put_number(length);
	if (length < 0)
		return 0;
	put_number(length ? rattle_arg(i, buffer, (uint64_t)length - 1) : 0);
	buffer[length] = MARK;
	put_number(rattle_arg(i, buffer, (uint64_t)length));
	put(buffer[length] == MARK ? "" : "a byte after it is changed ");
	write(1, buffer, (uint64_t)length);
	put("\n");
	return 1;
}

int main(void)
{
	uint64_t i = 0;
	int64_t got;
	while (put_word(i))
		i++;
	put_number(rattle_arg(UINT64_MAX, buffer, ROOM));
	put("\n");
	while ((got = read(0, buffer, ROOM)) > 0)
		write(1, buffer, (uint64_t)got);
	rattle_set_errno(0);
	put("\n"), put_number(got), put_number(rattle_errno());
	put_number(write(4, buffer, 1)), put_number(rattle_errno());
	return 3;
}
