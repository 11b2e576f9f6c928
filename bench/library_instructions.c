/* Encodes the bytes of standard input in byte mode, again and again, by the encoder that is chosen at compile time, for
 * bench/library: library_instructions VERSION LEVEL TIMES */
#include <stdio.h>
#include <stdlib.h>
#include <string.h>

#if defined(LIBQRENCODE)
#include <qrencode.h>
static int encode(const unsigned char *input, int len, int version, int level)
{
	QRcode *symbol = QRcode_encodeData(len, input, version, (QRecLevel)level);
	int side = symbol ? symbol->width : 0;
	QRcode_free(symbol);
	return side;
}
#elif defined(QRCODEGEN)
#include <stdbool.h>
#include <qrcodegen/qrcodegen.h>
static int encode(const unsigned char *input, int len, int version, int level)
{
	static uint8_t data[qrcodegen_BUFFER_LEN_MAX], symbol[qrcodegen_BUFFER_LEN_MAX];
	memcpy(data, input, (size_t)len);
	if (!qrcodegen_encodeBinary(data, (size_t)len, symbol, (enum qrcodegen_Ecc)level, version, 40, qrcodegen_Mask_AUTO, false))
		return 0;
	return qrcodegen_getSize(symbol);
}
#else
#include "qrproved.h"
static int encode(const unsigned char *input, int len, int version, int level)
{
	static uint8_t modules[QRPROVED_SYMBOL_MAX];
	struct qrproved_symbol symbol;
	if (qrproved_encode(input, (size_t)len, (uint32_t)version, (uint32_t)level, QRPROVED_RULE_BYTES_ONLY, QRPROVED_INTERPRETATION_DEFAULT, 0, modules, sizeof modules,
	                    &symbol))
		return 0;
	return symbol.side;
}
#endif

int main(int argc, char **argv)
{
	static unsigned char input[8000];
	if (argc != 4)
		return 2;
	int len = (int)fread(input, 1, sizeof input, stdin);
	int version = atoi(argv[1]);
	for (int times = atoi(argv[3]); times > 0; times--)
		if (encode(input, len, version, (int)(strchr("LMQH", argv[2][0]) - "LMQH")) != 17 + 4 * version)
			return 1;
	return 0;
}
