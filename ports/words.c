/* What compiled Rattle takes of a program's arguments and of errno: for targets for which the kit has no such glue. */
#include <errno.h>
#include <stdint.h>

static int count;
static char **words;

/* glibc passes what main is passed to each constructor too. */
__attribute__((constructor)) static void keep(int argc, char **argv) { count = argc, words = argv; }

/* Puts argument i at the start of a buffer and returns its length; -1 if there is no such argument, -2 if it does not fit. */
int64_t rattle_arg(uint64_t i, uint8_t *buffer, uint64_t room)
{
	uint64_t length = 0;
	if (i >= (uint64_t)count || !words[i])
		return -1;
	for (; words[i][length]; length++) {
		if (length == room)
			return -2;
		buffer[length] = (uint8_t)words[i][length];
	}
	return (int64_t)length;
}

int rattle_errno(void) { return errno; }

void rattle_set_errno(int error) { errno = error; }
