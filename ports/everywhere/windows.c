/* What the program takes of Windows: its arguments as UTF-8, and its standard streams as they are, byte by byte. The kit's clang has no
 * headers, so what is called is declared here. */
typedef __UINT8_TYPE__ uint8_t;
typedef __UINT16_TYPE__ uint16_t;
typedef __UINT32_TYPE__ uint32_t;
typedef __UINT64_TYPE__ uint64_t;
typedef __INT64_TYPE__ int64_t;

void *GetStdHandle(uint32_t which);
int ReadFile(void *file, void *bytes, uint32_t len, uint32_t *done, void *overlapped);
int WriteFile(void *file, const void *bytes, uint32_t len, uint32_t *done, void *overlapped);
int GetConsoleMode(void *console, uint32_t *mode);
uint32_t GetConsoleOutputCP(void);
int SetConsoleOutputCP(uint32_t encoding);
uint32_t GetLastError(void);
const uint16_t *GetCommandLineW(void);
uint16_t **CommandLineToArgvW(const uint16_t *line, int *count);
__attribute__((noreturn)) void ExitProcess(uint32_t status);

int main(void); /* of the program */
int _fltused;   /* a name that code with numbers of floating point asks for */

enum { UTF_8 = 65001, MOST = 1 << 20 /* bytes that are read or written at once */ };
enum { BROKEN_PIPE = 109, DISK_FULL = 112, CLOSING_PIPE = 232 }; /* errors of Windows */
enum { EIO = 5, ENOSPC = 28, EPIPE = 32 };                       /* and those of Linux, which the program knows */

static int last_error;

int rattle_errno(void) { return last_error; }
void rattle_set_errno(int error) { last_error = error; }

/* There is no SIGPIPE. */
uint64_t __sysv_signal(int number, uint64_t action)
{
	(void)number, (void)action;
	return 0;
}

/* ---- streams: 0 is standard input, 1 standard output, 2 standard error */

static void *handle_of(int stream) { return GetStdHandle((uint32_t)(-10 - stream)); }

static int64_t failed(uint32_t error)
{
	last_error = error == BROKEN_PIPE || error == CLOSING_PIPE ? EPIPE : error == DISK_FULL ? ENOSPC : EIO;
	return -1;
}

/* A pipe that its writer has closed is at its end. */
int64_t read(int stream, uint8_t *bytes, uint64_t len)
{
	uint32_t done = 0, error;
	if (ReadFile(handle_of(stream), bytes, len < MOST ? (uint32_t)len : MOST, &done, 0))
		return done;
	error = GetLastError();
	return error == BROKEN_PIPE ? 0 : failed(error);
}

int64_t write(int stream, const uint8_t *bytes, uint64_t len)
{
	uint32_t done = 0;
	if (WriteFile(handle_of(stream), bytes, len < MOST ? (uint32_t)len : MOST, &done, 0))
		return done;
	return failed(GetLastError());
}

/* ---- arguments */

static int count;
static uint16_t **words;

/* Returns the argument, or of the first one, which is the path of the program, its last part. */
static const uint16_t *word_at(uint64_t i)
{
	const uint16_t *word = words[i], *at;
	for (at = word; i == 0 && *at; at++)
		if (*at == '\\' || *at == '/' || *at == ':')
			word = at + 1;
	return word;
}

/* Returns the character at the start of a text in UTF-16, and sets `units` to how many numbers it takes. Half of a pair is its own. */
static uint32_t character_at(const uint16_t *text, int *units)
{
	*units = 1;
	if ((text[0] & 0xFC00) != 0xD800 || (text[1] & 0xFC00) != 0xDC00)
		return text[0];
	*units = 2;
	return 0x10000 + ((uint32_t)(text[0] & 0x3FF) << 10 | (text[1] & 0x3FF));
}

/* Writes a character as UTF-8, and returns the number of its bytes. Half of a pair becomes bytes that are no UTF-8. */
static int utf_8_of(uint32_t character, uint8_t bytes[4])
{
	int more = character < 0x80 ? 0 : character < 0x800 ? 1 : character < 0x10000 ? 2 : 3, k;
	static const uint8_t marks[] = {0, 0xC0, 0xE0, 0xF0};
	for (k = more; k > 0; k--, character >>= 6)
		bytes[k] = (uint8_t)(0x80 | (character & 0x3F));
	bytes[0] = (uint8_t)(marks[more] | character);
	return more + 1;
}

/* Puts argument i, as UTF-8, at the start of a buffer and returns its length; -1 if there is no such argument, -2 if it does not fit. */
int64_t rattle_arg(uint64_t i, uint8_t *buffer, uint64_t room)
{
	const uint16_t *word;
	uint64_t length = 0;
	int units, k, more;
	uint8_t bytes[4];
	if (!words || i >= (uint64_t)count)
		return -1;
	for (word = word_at(i); *word; word += units) {
		more = utf_8_of(character_at(word, &units), bytes);
		if (room - length < (uint64_t)more)
			return -2;
		for (k = 0; k < more; k++)
			buffer[length++] = bytes[k];
	}
	return (int64_t)length;
}

/* A console shows what is written in its own encoding, so that is UTF-8 as long as the program runs. */
__attribute__((noreturn)) void start(void)
{
	uint32_t mode, before = 0, status;
	if (GetConsoleMode(handle_of(1), &mode) || GetConsoleMode(handle_of(2), &mode)) {
		before = GetConsoleOutputCP();
		SetConsoleOutputCP(UTF_8);
	}
	words = CommandLineToArgvW(GetCommandLineW(), &count);
	status = (uint32_t)main();
	if (before)
		SetConsoleOutputCP(before);
	ExitProcess(status);
}
