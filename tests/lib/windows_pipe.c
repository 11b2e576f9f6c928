/* Runs a command of Windows for tests/everywhere, and passes on what standard input has by a pipe of Windows: windows_pipe COMMAND */
#include <fcntl.h>
#include <io.h>
#include <stdio.h>

int main(int argc, char **argv)
{
	FILE *to = argc == 2 ? _popen(argv[1], "wb") : NULL;
	int byte;
	if (!to)
		return 100;
	_setmode(0, _O_BINARY);
	while ((byte = getchar()) != EOF)
		putc(byte, to);
	return _pclose(to);
}
