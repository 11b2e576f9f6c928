/* QR Code symbols (ISO/IEC 18004:2015, QR Code Model 2): calls that encode an input as a symbol, as one with room for a logo
 * or as a series, draw symbols once more under another mask, draw them as text or as SVG, write their images as files, parse
 * drawings, find symbols in pictures, read symbols, mend damaged ones, and say how much fits a symbol. The calls are proved to
 * meet their contracts, which are in crates/qrproved; docs/LIBRARY.md says what the contracts mean for a caller. tests/library
 * compares this file with the exports of the library.
 *
 * A module is a byte in a buffer of the caller, in which the modules are row by row, from the top left. The buffer does not
 * contain the quiet zone, which is the four light modules that a drawing needs on each side; qrproved_draw and
 * qrproved_image add a margin, whose width the caller passes. For machines with little memory, qrproved_encode_bits writes a bit
 * for each module, and qrproved_draw_row draws such a square line by line. After a call the library keeps no state, no file and
 * no lock. A call allocates memory by malloc and realloc, and frees all of it before it returns; qrproved_draw_row,
 * qrproved_image and qrproved_png allocate none.
 *
 * At each call the caller has to meet these conditions:
 * - each pointer with a length beside it points to as many bytes as the length says, or for `ecis` to as many structs; each
 *   other pointer points to a struct or a number; a pointer with the length 0 is not used;
 * - no buffer overlaps another buffer, or the struct or number that the call writes;
 * - during the call nothing else writes to the buffers or the struct, and nothing else reads a buffer or a struct to which
 *   the call writes;
 * - malloc, realloc and free belong to one allocator, which returns memory that is aligned for every type that fits in it,
 *   as the C standard requires;
 * - no call is made from a signal handler, or in the forked child of a process with threads, since malloc may not be
 *   called there.
 * Calls may run at the same time in any number of threads, each with its own buffers and its own struct.
 */
#ifndef QRPROVED_H
#define QRPROVED_H

#include <stddef.h>
#include <stdint.h>

#ifdef __cplusplus
extern "C" {
#endif

#define QRPROVED_VERSION "0.2.0"
#define QRPROVED_VERSION_NUMBER 200 /* 10000 * major + 100 * minor + patch, for use in #if */

#define QRPROVED_SIDE_MAX 177      /* modules on a side of the largest symbol, which has version 40 */
#define QRPROVED_SYMBOL_MAX 31329  /* bytes that suffice for the modules of any symbol: 177 times 177 */
#define QRPROVED_COUNT_MAX 16      /* symbols in the longest series */
#define QRPROVED_SERIES_MAX 501264 /* bytes that suffice for the modules of any series or drawing: 16 times 31,329 */
#define QRPROVED_BYTES_MAX 7089    /* bytes that suffice for the content of any symbol: so many digits fit version 40, level L */
#define QRPROVED_ECIS_MAX 1970     /* structs that suffice for the ECI headers of any symbol: version 40, level L has 23,648
                                    * bits of data, and each header takes at least 12 of them */
#define QRPROVED_MASK_MAX 7        /* masks are numbered from 0 */
#define QRPROVED_MARGIN_MAX 100    /* the widest light margin on each side of a drawing or an image, in modules */
#define QRPROVED_SCALE_MAX 100     /* the most pixels of a module on each side of an image */
#define QRPROVED_LABELS_MAX 10000  /* squares in a document of labels */
#define QRPROVED_FOUND_MAX 64      /* the most squares that qrproved_find finds in a picture */
#define QRPROVED_PICTURE_MAX 32767 /* the widest and highest picture that qrproved_find takes, in pixels */
#define QRPROVED_PAPER_MAX 2000000 /* the widest and highest paper, in micrometres */
#define QRPROVED_PLACE_MAX 32000   /* how far an image may be from an edge of a label, in dots of the printer */
#define QRPROVED_SHARE_MAX 75      /* the most that a logo may use up of the codewords that can be corrected, in percent */
#define QRPROVED_WRONG_FORMAT_MAX 3 /* wrong modules of a copy of the format information that a scanner can correct */

/* The levels of error correction, by which about 7, 15, 25 or 30 % of a symbol's codewords can be restored. */
#define QRPROVED_LEVEL_L 0
#define QRPROVED_LEVEL_M 1
#define QRPROVED_LEVEL_Q 2
#define QRPROVED_LEVEL_H 3

/* The rules for the modes that the segments of an input may have. */
#define QRPROVED_RULE_AUTO 0       /* numeric, alphanumeric and byte mode, mixed so that the number of bits is least */
#define QRPROVED_RULE_BYTES_ONLY 1 /* the whole input in byte mode */
#define QRPROVED_RULE_WITH_KANJI 2 /* the modes of AUTO, and kanji mode for pairs of bytes that are Shift JIS characters */

/* The modes of segments. */
#define QRPROVED_MODE_NUMERIC 0      /* digits */
#define QRPROVED_MODE_ALPHANUMERIC 1 /* digits, capital letters, space and $%*+-./: */
#define QRPROVED_MODE_BYTE 2         /* any bytes */
#define QRPROVED_MODE_KANJI 3        /* pairs of bytes that are Shift JIS characters */

/* The interpretation: what the symbol says of its input. It is the number of an ECI (Extended Channel Interpretation), from 0
 * to 999,999, or one of the two numbers that follow 999,999. If a symbol says nothing, readers take its bytes for ISO/IEC
 * 8859-1 or for UTF-8. So a text with characters that are not in ASCII is best written as UTF-8 with QRPROVED_ECI_UTF8. */
#define QRPROVED_ECI_UTF8 26                    /* the input is a text in UTF-8 */
#define QRPROVED_INTERPRETATION_DEFAULT 1000000 /* the symbol says nothing of its input, and takes no bits for this */
#define QRPROVED_INTERPRETATION_GS1 1000001     /* the input is GS1 data, values with their application identifiers: the symbol
                                                 * has FNC1 in first position, and the byte 1D (hexadecimal) separates fields */

/* Whether a symbol has FNC1, and in which position. The position says what the content is. After FNC1 in either position the
 * byte 1D (hexadecimal) separates fields. */
#define QRPROVED_FNC1_NONE 0   /* the symbol has no FNC1 */
#define QRPROVED_FNC1_FIRST 1  /* first position: the content is GS1 data, values with their application identifiers */
#define QRPROVED_FNC1_SECOND 2 /* second position: the content follows the rules of the application that the application
                                * indicator names */

/* The types of drawings. The library draws each type byte for byte as the program qrencode of this project does. */
#define QRPROVED_ASCII 0  /* text: two # for a dark module, two spaces for a light module */
#define QRPROVED_ASCIIi 1 /* text: two spaces for a dark module, two # for a light module */
#define QRPROVED_UTF8 2   /* text: a character shows two modules, one above the other; its filled half is light */
#define QRPROVED_SVG 3    /* a whole SVG document, in which a module is one unit wide */

/* The formats of images. */
#define QRPROVED_PNG 0    /* Portable Network Graphics (ISO/IEC 15948), in grey with one bit a pixel */
#define QRPROVED_PBM 1    /* a raw bitmap of netpbm, P4 */
#define QRPROVED_ESCPOS 2 /* the command GS v 0 of ESC/POS, for receipt printers, in bands of at most 255 lines */
#define QRPROVED_TSPL 3   /* the command BITMAP of TSPL, for label printers; it goes between the commands CLS and PRINT */
#define QRPROVED_ZPL 4    /* a label in ZPL, for label printers, with the square as an image */

/* The formats of documents for print, which qrproved_document writes. Each document says how large it is on paper. */
#define QRPROVED_SVG_MM 0 /* the SVG document of qrproved_draw, with its width and height in millimetres */
#define QRPROVED_EPS 1    /* Encapsulated PostScript */
#define QRPROVED_PDF 2    /* PDF 1.4, with a page for each square */

/* The statuses, of which each call except qrproved_version returns one. The comment at each call has the exact causes of its
 * statuses, in the order in which the call checks them. On every status but 0 the caller's buffers and struct are unchanged;
 * but on ROOM the calls that write a text or a file set the number `written`, and on LOGO qrproved_encode_logo sets the number `largest`.
 * Later versions may add statuses, and do not change the meaning of these. */
#define QRPROVED_DONE 0     /* the result is written */
#define QRPROVED_EMPTY 1    /* the input has no byte */
#define QRPROVED_TOO_LONG 2 /* the input fits no version from the smallest allowed version on */
#define QRPROVED_TOO_MANY 3 /* the input takes more than 16 symbols of the version */
#define QRPROVED_MEMORY 4   /* malloc or realloc refused memory */
#define QRPROVED_SETTINGS 5 /* a number is out of its range; or the rule allows kanji mode, or in qrproved_room the mode is
                             * kanji mode, but the interpretation is an ECI other than Shift JIS; or, in qrproved_mend, the
                             * byte of a module is more than 2 */
#define QRPROVED_ROOM 6     /* a buffer other than that of the ECI headers is too short */
#define QRPROVED_SIDE 7     /* no version has so many modules on a side */
#define QRPROVED_FORMAT 8   /* the format information belongs to no level and mask, or in qrproved_mend is too damaged */
#define QRPROVED_CHECK 9    /* a block does not match its error correction codewords, or in qrproved_mend is too damaged */
#define QRPROVED_SEGMENTS 10 /* the data codewords cannot be parsed */
#define QRPROVED_NO_DRAWING 11 /* the text is no drawing, or it shows a square that does not begin as symbols do */
#define QRPROVED_FIELDS 12  /* the input is no GS1 data: a byte 1D (hexadecimal) comes directly before another or before % */
#define QRPROVED_LOGO 13    /* the input fits, but no symbol of it may have a logo of this size */

/* The version, the size, the level and the mask of a symbol that was encoded. */
struct qrproved_symbol {
	uint8_t version; /* from 1 to 40 */
	uint8_t side;    /* modules on a side: 17 + 4 * version */
	uint8_t level;   /* QRPROVED_LEVEL_L to QRPROVED_LEVEL_H: the level that was passed, or with boost perhaps a higher one */
	uint8_t mask;    /* from 0 to 7 */
};

/* The number of symbols of a series that was encoded, and their size. */
struct qrproved_series {
	uint8_t count; /* number of symbols, from 1 to 16 */
	uint8_t side;  /* modules on a side of each symbol */
};

/* An ECI header of a symbol (Extended Channel Interpretation). Its number says what the bytes after it mean, up to the next
 * ECI header. Bytes before the first ECI header have none: the standard takes them for ISO/IEC 8859-1, and many readers take
 * them for UTF-8. */
struct qrproved_eci {
	uint64_t begin;  /* number of bytes of the content before the header */
	uint32_t number; /* from 0 to 999,999: 26 is UTF-8, 20 is Shift JIS, 3 is ISO/IEC 8859-1 */
	uint32_t unused; /* has no meaning; with it the struct has 16 bytes on every machine */
};

/* What a symbol that was read contains, besides its bytes and its ECI headers. */
struct qrproved_content {
	uint64_t len;        /* number of bytes of the content */
	uint64_t eci_count;  /* number of all ECI headers of the symbol, even if some were not written for lack of room */
	uint8_t version;     /* from 1 to 40 */
	uint8_t has_header;  /* 1 for a symbol of a series, which has a structured append header; 0 for a plain symbol, and then
	                      * the next three fields are 0 */
	uint8_t position;    /* position of the symbol in its series, from 0 to 15 */
	uint8_t last;        /* number of symbols in the series less 1, from 0 to 15 */
	uint8_t parity;      /* the exclusive or of all bytes of the input of the series */
	uint8_t fnc1;        /* QRPROVED_FNC1_NONE to QRPROVED_FNC1_SECOND */
	uint8_t application; /* with QRPROVED_FNC1_SECOND the application indicator: a number from 0 to 99, or the ASCII code of a
	                      * letter plus 100; otherwise 0 */
	uint8_t has_kanji;   /* 1 if a segment is in kanji mode, which writes characters of Shift JIS; otherwise 0 */
};

/* What a damaged symbol that was mended contains, besides its bytes and its ECI headers, and the counts of its damage. A field
 * that qrproved_content also has means the same as there. */
struct qrproved_mended {
	uint64_t len;                 /* number of bytes of the content */
	uint64_t eci_count;           /* number of all ECI headers of the symbol, even if some were not written */
	uint32_t wrong_modules;       /* number of modules that are wrong or not known; if 0, each module is right */
	uint8_t version;              /* from 1 to 40 */
	uint8_t has_header;           /* 1 for a symbol of a series; 0 for a plain symbol, and then the next three fields are 0 */
	uint8_t position;             /* position of the symbol in its series, from 0 to 15 */
	uint8_t last;                 /* number of symbols in the series less 1, from 0 to 15 */
	uint8_t parity;               /* the exclusive or of all bytes of the input of the series */
	uint8_t fnc1;                 /* QRPROVED_FNC1_NONE to QRPROVED_FNC1_SECOND */
	uint8_t application;          /* with QRPROVED_FNC1_SECOND the application indicator, otherwise 0 */
	uint8_t has_kanji;            /* 1 if a segment is in kanji mode, otherwise 0 */
	uint8_t level;                /* QRPROVED_LEVEL_L to QRPROVED_LEVEL_H */
	uint8_t mask;                 /* from 0 to 7 */
	uint8_t wrong_format_modules; /* number of the 30 modules of format information that are wrong or not known */
	uint8_t wrong_format_least;   /* number of modules that are wrong or not known, of the 15 modules of the copy of the format
	                               * information that has fewer of them; scanners read the copy if there are at most
	                               * QRPROVED_WRONG_FORMAT_MAX */
	uint8_t changed_most;         /* number of wrong codewords in the block with the most wrong codewords; codewords with a
	                               * module that is not known do not count */
	uint8_t changed_allowed;      /* number of codewords that may be wrong in each block, from 2 to 15 */
	uint8_t spent_most;           /* the greatest e + 2w of a block, of which e codewords have a module that is not known, and w
	                               * others are wrong; at most 2 * changed_allowed, and then nothing more can be mended */
	uint8_t worst_misread;        /* w of the worst block, which is the first with the greatest e + w. A scanner takes a codeword
	                               * as wrong if it has a module that is not known, so it reads the symbol only if
	                               * worst_misread + worst_unknown is at most changed_allowed */
	uint8_t worst_unknown;        /* e of the worst block */
	uint8_t worst_unknown_wrong;  /* how many of these e codewords are wrong if each module that is not known is dark */
};

/* What a drawing that was parsed shows, besides the modules. */
struct qrproved_drawn {
	uint8_t drawing; /* QRPROVED_ASCII to QRPROVED_SVG */
	uint8_t margin;  /* number of light modules on each side of each square, from 0 to 255 */
	uint8_t count;   /* number of squares, from 1 to 16 */
	uint8_t side;    /* modules on a side of each square, from 8 to 177 */
};

/* A square that was found in a picture. Its corners are in sixteenths of a pixel, x from the left edge of the picture and y from
 * the upper edge. The corner (x0, y0) is that of the first module, and the others follow clockwise around the square. */
struct qrproved_found {
	uint32_t x0;
	uint32_t y0;
	uint32_t x1;
	uint32_t y1;
	uint32_t x2;
	uint32_t y2;
	uint32_t x3;
	uint32_t y3;
	uint32_t side;         /* modules on a side, from 21 to 177 */
	uint8_t quarter_turns; /* by how many quarter turns the symbol is turned clockwise, to the nearest one: from 0 to 3 */
	uint8_t is_inverse;    /* 1: the symbol is light on dark; 0: dark on light */
	uint8_t is_mirrored;   /* 1: the symbol is mirrored: its first row goes from (x0, y0) to (x3, y3); 0: to (x1, y1) */
	uint8_t is_read;       /* 1: the symbol can be mended; 0: it looks like a symbol, and cannot be mended */
};

/* Label paper, for qrproved_sheets. All lengths are in micrometres, of which a millimetre has 1,000. */
struct qrproved_sheet {
	uint32_t width;   /* width of the paper, at most QRPROVED_PAPER_MAX */
	uint32_t height;  /* height of the paper, at most QRPROVED_PAPER_MAX */
	uint32_t left;    /* how far the first place is from the left edge of the paper */
	uint32_t top;     /* how far the first place is from the upper edge of the paper */
	uint32_t across;  /* how far it is from the left edge of a place to that of the next place in its row */
	uint32_t down;    /* how far it is from the upper edge of a place to that of the next place in its column */
	uint32_t columns; /* number of columns of places, from 1 to 100 */
	uint32_t rows;    /* number of rows of places, from 1 to 100 */
	uint32_t first;   /* how many places of the first page stay free, less than columns times rows */
};

/* Checks of the sizes and offsets of the structs, on which the compiled calls depend. */
#if defined(__cplusplus) && __cplusplus >= 201103L
#define QRPROVED_HOLDS(fact) static_assert(fact, #fact)
#elif defined(__STDC_VERSION__) && __STDC_VERSION__ >= 201112L
#define QRPROVED_HOLDS(fact) _Static_assert(fact, #fact)
#else
#define QRPROVED_HOLDS(fact) struct qrproved_symbol
#endif
QRPROVED_HOLDS(sizeof(struct qrproved_symbol) == 4);
QRPROVED_HOLDS(offsetof(struct qrproved_symbol, version) == 0);
QRPROVED_HOLDS(offsetof(struct qrproved_symbol, side) == 1);
QRPROVED_HOLDS(offsetof(struct qrproved_symbol, level) == 2);
QRPROVED_HOLDS(offsetof(struct qrproved_symbol, mask) == 3);
QRPROVED_HOLDS(sizeof(struct qrproved_series) == 2);
QRPROVED_HOLDS(offsetof(struct qrproved_series, count) == 0);
QRPROVED_HOLDS(offsetof(struct qrproved_series, side) == 1);
QRPROVED_HOLDS(sizeof(struct qrproved_eci) == 16);
QRPROVED_HOLDS(offsetof(struct qrproved_eci, begin) == 0);
QRPROVED_HOLDS(offsetof(struct qrproved_eci, number) == 8);
QRPROVED_HOLDS(offsetof(struct qrproved_eci, unused) == 12);
QRPROVED_HOLDS(sizeof(struct qrproved_content) == 24);
QRPROVED_HOLDS(offsetof(struct qrproved_content, len) == 0);
QRPROVED_HOLDS(offsetof(struct qrproved_content, eci_count) == 8);
QRPROVED_HOLDS(offsetof(struct qrproved_content, version) == 16);
QRPROVED_HOLDS(offsetof(struct qrproved_content, has_header) == 17);
QRPROVED_HOLDS(offsetof(struct qrproved_content, position) == 18);
QRPROVED_HOLDS(offsetof(struct qrproved_content, last) == 19);
QRPROVED_HOLDS(offsetof(struct qrproved_content, parity) == 20);
QRPROVED_HOLDS(offsetof(struct qrproved_content, fnc1) == 21);
QRPROVED_HOLDS(offsetof(struct qrproved_content, application) == 22);
QRPROVED_HOLDS(offsetof(struct qrproved_content, has_kanji) == 23);
QRPROVED_HOLDS(sizeof(struct qrproved_mended) == 40);
QRPROVED_HOLDS(offsetof(struct qrproved_mended, len) == 0);
QRPROVED_HOLDS(offsetof(struct qrproved_mended, eci_count) == 8);
QRPROVED_HOLDS(offsetof(struct qrproved_mended, wrong_modules) == 16);
QRPROVED_HOLDS(offsetof(struct qrproved_mended, version) == 20);
QRPROVED_HOLDS(offsetof(struct qrproved_mended, has_header) == 21);
QRPROVED_HOLDS(offsetof(struct qrproved_mended, position) == 22);
QRPROVED_HOLDS(offsetof(struct qrproved_mended, last) == 23);
QRPROVED_HOLDS(offsetof(struct qrproved_mended, parity) == 24);
QRPROVED_HOLDS(offsetof(struct qrproved_mended, fnc1) == 25);
QRPROVED_HOLDS(offsetof(struct qrproved_mended, application) == 26);
QRPROVED_HOLDS(offsetof(struct qrproved_mended, has_kanji) == 27);
QRPROVED_HOLDS(offsetof(struct qrproved_mended, level) == 28);
QRPROVED_HOLDS(offsetof(struct qrproved_mended, mask) == 29);
QRPROVED_HOLDS(offsetof(struct qrproved_mended, wrong_format_modules) == 30);
QRPROVED_HOLDS(offsetof(struct qrproved_mended, wrong_format_least) == 31);
QRPROVED_HOLDS(offsetof(struct qrproved_mended, changed_most) == 32);
QRPROVED_HOLDS(offsetof(struct qrproved_mended, changed_allowed) == 33);
QRPROVED_HOLDS(offsetof(struct qrproved_mended, spent_most) == 34);
QRPROVED_HOLDS(offsetof(struct qrproved_mended, worst_misread) == 35);
QRPROVED_HOLDS(offsetof(struct qrproved_mended, worst_unknown) == 36);
QRPROVED_HOLDS(offsetof(struct qrproved_mended, worst_unknown_wrong) == 37);
QRPROVED_HOLDS(sizeof(struct qrproved_drawn) == 4);
QRPROVED_HOLDS(offsetof(struct qrproved_drawn, drawing) == 0);
QRPROVED_HOLDS(offsetof(struct qrproved_drawn, margin) == 1);
QRPROVED_HOLDS(offsetof(struct qrproved_drawn, count) == 2);
QRPROVED_HOLDS(offsetof(struct qrproved_drawn, side) == 3);
QRPROVED_HOLDS(sizeof(struct qrproved_sheet) == 36);
QRPROVED_HOLDS(offsetof(struct qrproved_sheet, width) == 0);
QRPROVED_HOLDS(offsetof(struct qrproved_sheet, height) == 4);
QRPROVED_HOLDS(offsetof(struct qrproved_sheet, left) == 8);
QRPROVED_HOLDS(offsetof(struct qrproved_sheet, top) == 12);
QRPROVED_HOLDS(offsetof(struct qrproved_sheet, across) == 16);
QRPROVED_HOLDS(offsetof(struct qrproved_sheet, down) == 20);
QRPROVED_HOLDS(offsetof(struct qrproved_sheet, columns) == 24);
QRPROVED_HOLDS(offsetof(struct qrproved_sheet, rows) == 28);
QRPROVED_HOLDS(offsetof(struct qrproved_sheet, first) == 32);
QRPROVED_HOLDS(sizeof(struct qrproved_found) == 40);
QRPROVED_HOLDS(offsetof(struct qrproved_found, x0) == 0);
QRPROVED_HOLDS(offsetof(struct qrproved_found, y0) == 4);
QRPROVED_HOLDS(offsetof(struct qrproved_found, x1) == 8);
QRPROVED_HOLDS(offsetof(struct qrproved_found, y1) == 12);
QRPROVED_HOLDS(offsetof(struct qrproved_found, x2) == 16);
QRPROVED_HOLDS(offsetof(struct qrproved_found, y2) == 20);
QRPROVED_HOLDS(offsetof(struct qrproved_found, x3) == 24);
QRPROVED_HOLDS(offsetof(struct qrproved_found, y3) == 28);
QRPROVED_HOLDS(offsetof(struct qrproved_found, side) == 32);
QRPROVED_HOLDS(offsetof(struct qrproved_found, quarter_turns) == 36);
QRPROVED_HOLDS(offsetof(struct qrproved_found, is_inverse) == 37);
QRPROVED_HOLDS(offsetof(struct qrproved_found, is_mirrored) == 38);
QRPROVED_HOLDS(offsetof(struct qrproved_found, is_read) == 39);
#undef QRPROVED_HOLDS

/* The caller has to use the result of a call, and may not pass NULL as the pointer to a struct or to a number. Compilers that
 * know the attributes of QRPROVED_RESULT, QRPROVED_CALL and QRPROVED_CALL_2 warn of a call that breaks one of these rules. */
#if defined(__GNUC__)
#define QRPROVED_RESULT __attribute__((warn_unused_result))
#define QRPROVED_CALL(pointer) __attribute__((warn_unused_result, nonnull(pointer)))
#define QRPROVED_CALL_2(one, other) __attribute__((warn_unused_result, nonnull(one, other)))
#else
#define QRPROVED_RESULT
#define QRPROVED_CALL(pointer)
#define QRPROVED_CALL_2(one, other)
#endif

/* Returns the version of the library that was linked, in the form of QRPROVED_VERSION_NUMBER. (The macro is the version of
 * this header.) */
uint32_t qrproved_version(void);

/* Encodes the input as a symbol and writes its modules: modules[row * side + column] is 1 if the module in this row and
 * column is dark, and 0 if it is light. Bytes of the buffer after the last module are unchanged.
 *
 * version  the smallest allowed version, from 1 to 40; the symbol has the least allowed version that the input fits at the
 *          level that is passed
 * level    QRPROVED_LEVEL_L to QRPROVED_LEVEL_H
 * rule     QRPROVED_RULE_AUTO to QRPROVED_RULE_WITH_KANJI
 * interpretation  the number of an ECI, QRPROVED_INTERPRETATION_DEFAULT or QRPROVED_INTERPRETATION_GS1. Before its data the
 *          symbol says that they have this ECI, or nothing, or that they are GS1 data. This takes 12 bits for an ECI below
 *          128, 20 bits for one from 128 to 16,383, 28 bits for one from 16,384 on, and 4 bits for GS1 data. The call does not
 *          convert the bytes of the input, and does not check whether they are text in this ECI
 * boost    0: the symbol has the level that is passed; 1: the symbol has the version that it would have without boost, and the
 *          highest level, at least the one that is passed, at which the input fits this version
 * modules  the buffer for the modules; QRPROVED_SYMBOL_MAX bytes suffice for any symbol
 *
 * Readers take the pairs of bytes in kanji mode for Shift JIS. With another ECI than 20, which is Shift JIS, such pairs could
 * be bytes of other characters, so QRPROVED_RULE_WITH_KANJI is then refused. In GS1 data a byte 1D (hexadecimal) comes after
 * each field that has no predefined length, if another field follows; no field is empty, and none begins with %.
 *
 * Returns the first of these statuses whose cause applies:
 *   SETTINGS  version, level, rule, interpretation or boost is out of its range; or rule is WITH_KANJI, and interpretation is
 *             an ECI other than 20
 *   EMPTY     input_len is 0
 *   FIELDS    interpretation is GS1, and a byte 1D (hexadecimal) comes directly before another 1D or before %
 *   TOO_LONG  the input fits no version from the smallest allowed version on; more than 7,089 bytes are always TOO_LONG
 *   ROOM      modules_len is less than the number of modules of the symbol
 *   DONE      the call succeeded
 * If memory is refused, the call returns MEMORY in place of any of these statuses but SETTINGS, EMPTY, FIELDS, and TOO_LONG
 * for an input of more than 7,089 bytes.
 */
QRPROVED_CALL(10)
uint8_t qrproved_encode(const uint8_t *input, size_t input_len, uint32_t version, uint32_t level, uint32_t rule,
                        uint32_t interpretation, uint32_t boost, uint8_t *modules, size_t modules_len,
                        struct qrproved_symbol *symbol);

/* Encodes the input as a symbol as qrproved_encode does, and writes its modules as bits, row by row and without gaps between two
 * rows. The module in row `row` and column `column` has the number k = row * side + column. It is dark if bits[k / 8] has the bit
 * 128 >> k % 8, and light if not. The bits after the last module, up to the end of its byte, are 0. Bytes of the buffer after this
 * byte are unchanged.
 *
 * bits     the buffer for the modules; a symbol with `side` modules on a side takes QRPROVED_BITS(side) bytes, which are 56 for
 *          version 1 and 3,917 for version 40
 *
 * The other arguments, and the statuses, are those of qrproved_encode, but for this one:
 *   ROOM      bits_len is less than QRPROVED_BITS(side) of the symbol
 */
#define QRPROVED_BITS(side) (((size_t)(side) * (side) + 7) / 8)
QRPROVED_CALL(10)
uint8_t qrproved_encode_bits(const uint8_t *input, size_t input_len, uint32_t version, uint32_t level, uint32_t rule,
                             uint32_t interpretation, uint32_t boost, uint8_t *bits, size_t bits_len,
                             struct qrproved_symbol *symbol);

/* Encodes the input as a symbol that may have a logo, and writes its modules as qrproved_encode does. The logo is a square of `logo` by
 * `logo` modules in the middle of the symbol: its first row and its first column have the number QRPROVED_LOGO_FIRST(side, logo). The
 * call writes the symbol without the logo. The caller draws any picture there, and a light ring around the picture belongs to the
 * logo.
 *
 * Each codeword with a module under the logo counts as wrong, whatever colour the module gets. In each block such codewords are at most
 * `share` percent of those that may be wrong (changed_allowed of qrproved_mended), so that the rest may be wrong for other reasons. The
 * logo covers no module of a finder pattern, its separator, a timing pattern, the format information or the version information. A
 * reader that corrects what the standard allows reads the symbol; an alignment pattern in the middle may be covered.
 *
 * version  the smallest allowed version, from 1 to 40; the symbol has the least allowed version with which, at some allowed level, the
 *          input fits and the logo is allowed
 * level    the lowest allowed level; of the levels with which this holds, the symbol has the highest
 * rule, interpretation  as in qrproved_encode
 * logo     number of modules of the logo on a side, from 0 to 177
 * share    from 0 to QRPROVED_SHARE_MAX; 50 leaves half of what may be wrong for dirt and wear
 * modules  the buffer for the modules; QRPROVED_SYMBOL_MAX bytes suffice for any symbol
 * largest  on LOGO, the call sets it to the side of the largest logo that a symbol of this input may have, in modules: over all
 *          allowed versions and levels that the input fits; on every other status it is unchanged
 *
 * Returns the first of these statuses whose cause applies:
 *   SETTINGS  version, level, rule, interpretation, logo or share is out of its range; or rule is WITH_KANJI, and interpretation is
 *             an ECI other than 20
 *   EMPTY     input_len is 0
 *   FIELDS    interpretation is GS1, and a byte 1D (hexadecimal) comes directly before another 1D or before %
 *   TOO_LONG  the input fits no version from the smallest allowed version on; more than 7,089 bytes are always TOO_LONG
 *   LOGO      no allowed version and level that the input fits allow the logo
 *   ROOM      modules_len is less than the number of modules of the symbol
 *   DONE      the call succeeded
 * If memory is refused, the call returns MEMORY in place of any of these statuses but SETTINGS, EMPTY, FIELDS, and TOO_LONG
 * for an input of more than 7,089 bytes.
 */
#define QRPROVED_LOGO_FIRST(side, logo) (((side) - (logo)) / 2)
QRPROVED_CALL_2(11, 12)
uint8_t qrproved_encode_logo(const uint8_t *input, size_t input_len, uint32_t version, uint32_t level, uint32_t rule,
                             uint32_t interpretation, uint32_t logo, uint32_t share, uint8_t *modules, size_t modules_len,
                             struct qrproved_symbol *symbol, uint8_t *largest);

/* Encodes the input as a series of symbols (structured append), all of one version, and writes their modules:
 * modules[(k * side + row) * side + column] is the module of symbol k in this row and column, where the first symbol has the
 * number 0. An input that fits one symbol is encoded as one plain symbol, which has no structured append header. Bytes of the
 * buffer after the last module are unchanged.
 *
 * version  the version of all symbols, from 1 to 40
 * modules  the buffer for the modules; QRPROVED_SERIES_MAX bytes suffice for any series
 *
 * The other arguments are those of qrproved_encode. Each symbol of the series says what `interpretation` asks for. The input
 * may be cut between any two bytes, even within a character.
 *
 * Returns the first of these statuses whose cause applies:
 *   SETTINGS  version, level, rule or interpretation is out of its range; or rule is WITH_KANJI, and interpretation is an ECI
 *             other than 20
 *   EMPTY     input_len is 0
 *   FIELDS    interpretation is GS1, and a byte 1D (hexadecimal) comes directly before another 1D or before %
 *   TOO_MANY  the input takes more than 16 symbols of the version; more than 113,425 bytes are always TOO_MANY
 *   ROOM      modules_len is less than the number of modules of the series
 *   DONE      the call succeeded
 * If memory is refused, the call returns MEMORY in place of any of these statuses but SETTINGS, EMPTY, FIELDS, and TOO_MANY
 * for an input of more than 113,425 bytes.
 */
QRPROVED_CALL(9)
uint8_t qrproved_encode_series(const uint8_t *input, size_t input_len, uint32_t version, uint32_t level, uint32_t rule,
                               uint32_t interpretation, uint8_t *modules, size_t modules_len, struct qrproved_series *series);

/* Draws a symbol once more, under another mask. The buffer `modules` contains its modules, in the order in which qrproved_encode
 * writes them. Any byte but 0 is a dark module. The call writes the modules of the new symbol in their place, and leaves the rest
 * of the buffer unchanged. The new symbol has the version, the level and the codewords of the old one, so its content is the same.
 * qrproved_encode and the other calls that encode choose the mask with the least penalty, as the standard asks. Another mask is for
 * tests, and for comparing symbols with those of other programs; scanners may read it less well.
 *
 * side  number of modules on a side: 21, 25, and so on to 177
 * mask  from 0 to QRPROVED_MASK_MAX
 *
 * The codewords are read as qrproved_read reads them, but whether they are damaged is not checked. The function patterns, the
 * version information, the format information and the remainder bits of the new symbol are as the standard says, whatever they
 * were before.
 *
 * Returns the first of these statuses whose cause applies:
 *   SETTINGS  mask is out of its range
 *   SIDE      no version has so many modules on a side
 *   ROOM      modules_len is less than side times side
 *   FORMAT    the first copy of the format information belongs to no level and mask
 *   DONE      the call succeeded
 * If memory is refused, the call returns MEMORY in place of FORMAT and DONE.
 */
QRPROVED_RESULT
uint8_t qrproved_set_mask(uint8_t *modules, size_t modules_len, uint32_t side, uint32_t mask);

/* Reads a symbol. The buffer `modules` contains its modules, in the order in which qrproved_encode writes them. Any byte but
 * 0 is a dark module, and bytes after the last module are ignored. The call writes the content of the symbol to the start of
 * the buffer `bytes`, and the ECI headers of the symbol, in their order, to the start of the buffer `ecis`. It leaves the rest
 * of these two buffers unchanged. It corrects no errors: each codeword has to be as it was drawn.
 *
 * side   number of modules on a side: 21, 25, and so on to 177
 * bytes  the buffer for the content; QRPROVED_BYTES_MAX bytes suffice for any symbol
 * ecis   the buffer for the ECI headers; if the symbol has more than ecis_len headers, only the first ecis_len are written,
 *        and the call still succeeds. QRPROVED_ECIS_MAX structs suffice for any symbol; most symbols have no header or one
 *
 * The content of a symbol is the list of bytes for which its characters stand. After FNC1, in alphanumeric mode, % stands for
 * the byte 1D (hexadecimal) and %% for %; in the other modes % stands for itself.
 *
 * The call reads the codewords, and the first copy of the format information, which is beside the top left finder pattern. It
 * parses the data codewords up to the terminator. It ignores all other modules: finder, alignment and timing patterns,
 * separators, the dark module, the version information, the second copy of the format information and the remainder bits. So
 * DONE does not mean that a scanner finds the symbol. (qrproved_mend looks at every module.)
 *
 * Returns the first of these statuses whose cause applies:
 *   SIDE      no version has so many modules on a side
 *   ROOM      modules_len is less than side times side
 *   FORMAT    the first copy of the format information belongs to no level and mask
 *   CHECK     the error correction codewords of a block do not match its data codewords
 *   SEGMENTS  the data codewords cannot be parsed
 *   ROOM      bytes_len is less than the number of bytes that the symbol contains
 *   DONE      the call succeeded
 * If memory is refused, the call returns MEMORY in place of any status after the first ROOM.
 */
QRPROVED_CALL(8)
uint8_t qrproved_read(const uint8_t *modules, size_t modules_len, uint32_t side, uint8_t *bytes, size_t bytes_len,
                      struct qrproved_eci *ecis, size_t ecis_len, struct qrproved_content *content);

/* Reads a damaged symbol, mends the damage, and counts it. The buffer `modules` contains the modules of the symbol, in the
 * order in which qrproved_encode writes them: 0 is a light module, 1 is a dark module, and 2 is a module that is not known,
 * for example because it is under a smudge or a fold, or out of the camera's view. Bytes after the last module are ignored.
 * The call writes the content of the symbol to the start of the buffer `bytes`, and its ECI headers to the start of the
 * buffer `ecis`, as qrproved_read does. If all modules are 0 or 1 and qrproved_read reads them, this call gives the same
 * content.
 *
 * side   number of modules on a side: 21, 25, and so on to 177
 * bytes  the buffer for the content; QRPROVED_BYTES_MAX bytes suffice for any symbol
 * ecis   the buffer for the ECI headers, as in qrproved_read
 *
 * The format information is the level and the mask, and a symbol contains two copies of it, of 15 modules each. The cost of a
 * copy with a level and a mask is 1 for each module that is not known, and 2 for each other module that does not agree with
 * this level and mask. A pair of a level and a mask is tried if at least one copy has a cost of at most 6 with it. Each copy
 * has such a cost with at most one pair, so at most two pairs are tried. If with both pairs every block can be mended, the
 * call takes the pair with which the costs of the two copies add up to less. If the two sums are equal, it takes the pair with
 * which the first copy, the one beside the top left finder pattern, has a cost of at most 6. So a symbol whose blocks can be
 * mended is mended to exactly itself in two cases. In the first case, both copies together have a cost of at most 13 with the
 * symbol's own level and mask; six wrong modules of format information cost 12. In the second case, one copy has a cost of at
 * most 6 with this level and mask, and with the other pair that is tried, if there is one, some block cannot be mended.
 *
 * In each block the call mends at most changed_allowed wrong codewords, which is the number that the standard allows. A
 * codeword with a module that is not known counts as half a wrong codeword: a block with e such codewords and w other wrong
 * codewords can be mended if e + 2w is at most twice changed_allowed. All modules outside the codewords and the format
 * information may be wrong, since the content does not depend on them; wrong_modules counts those that are.
 *
 * If wrong_modules is 0, the square is, module by module, the symbol that the standard defines for its data codewords in its
 * version, level and mask. Otherwise two shares say how much of the error correction is spent. For this library it is
 * spent_most / (2 * changed_allowed). A scanner does not know which modules are not known, so it takes each codeword with such
 * a module as wrong: for a scanner the share is (worst_misread + worst_unknown) / changed_allowed. If this is above 1, the
 * library reads the symbol, but scanners will not. docs/LIBRARY.md says how to check labels by these counts, and what the
 * counts do not say of a printed label.
 *
 * If the damage exceeds these bounds, the square may by chance be one that damage within the bounds makes of another symbol.
 * The call then reads this other symbol, as any reader may.
 *
 * Returns the first of these statuses whose cause applies:
 *   SIDE      no version has so many modules on a side
 *   ROOM      modules_len is less than side times side
 *   SETTINGS  a byte among the first side times side bytes is more than 2
 *   FORMAT    each copy has a cost of more than 6 with every level and mask
 *   CHECK     with each pair of a level and a mask that is tried, some block has more damage than can be mended
 *   SEGMENTS  the mended data codewords cannot be parsed
 *   ROOM      bytes_len is less than the number of bytes that the symbol contains
 *   DONE      the call succeeded
 * If memory is refused, the call returns MEMORY in place of any status after SETTINGS.
 */
QRPROVED_CALL(8)
uint8_t qrproved_mend(const uint8_t *modules, size_t modules_len, uint32_t side, uint8_t *bytes, size_t bytes_len,
                      struct qrproved_eci *ecis, size_t ecis_len, struct qrproved_mended *mended);

/* Draws squares of modules, which all have the same side, and writes the drawing, byte for byte as qrencode draws symbols. A
 * text has the squares one after the other, and an SVG document has them one below the other. The buffer `modules` contains
 * the modules, in the order in which qrproved_encode_series writes them. Any byte but 0 is a dark module, and bytes after the
 * last module are ignored. A square need not be a symbol. The call writes no byte 0 after the drawing, and leaves the rest of
 * the buffer `text` unchanged.
 *
 * side     number of modules on a side, from 1 to 177
 * count    number of squares, from 1 to QRPROVED_COUNT_MAX
 * drawing  QRPROVED_ASCII to QRPROVED_SVG
 * margin   number of light modules on each side of each square, from 0 to QRPROVED_MARGIN_MAX; a scanner needs 4
 * text     the buffer for the drawing; it may be NULL if text_len is 0, to ask only for the length of the drawing
 * written  on DONE, and on ROOM because of text_len, the call sets it to the length of the drawing; on ROOM because of
 *          modules_len it sets it to 0; on every other status it is unchanged
 *
 * Returns the first of these statuses whose cause applies:
 *   SETTINGS  side, count, drawing or margin is out of its range
 *   ROOM      modules_len is less than count times side times side
 *   ROOM      text_len is less than the length of the drawing
 *   DONE      the call succeeded
 * If memory is refused, the call returns MEMORY in place of any status after the first ROOM. The call makes the drawing in
 * memory that it allocates, and copies it to the buffer `text` when it is complete.
 */
QRPROVED_CALL(9)
uint8_t qrproved_draw(const uint8_t *modules, size_t modules_len, uint32_t side, uint32_t count, uint32_t drawing,
                      uint32_t margin, uint8_t *text, size_t text_len, size_t *written);

/* Writes one line of the text that qrproved_draw writes of one square, with the line feed at its end. The lines one after the other
 * are the whole text. The buffer `bits` contains the modules as qrproved_encode_bits writes them; bits after the last module are
 * ignored. A square need not be a symbol. The call leaves the rest of the buffer `text` unchanged. It allocates no memory.
 *
 * side     number of modules on a side, from 1 to 177
 * drawing  QRPROVED_ASCII, QRPROVED_ASCIIi or QRPROVED_UTF8
 * margin   number of light modules on each side of the square, from 0 to QRPROVED_MARGIN_MAX; a scanner needs 4
 * row      the number of the line, counted from 0. The text has side + 2 * margin lines, and with QRPROVED_UTF8 half as many,
 *          rounded up
 * text     the buffer for the line; it may be NULL if text_len is 0, to ask only for the length of the line. A line has at most
 *          QRPROVED_ROW(drawing, side, margin) bytes
 * written  on DONE, and on ROOM because of text_len, the call sets it to the length of the line; on ROOM because of bits_len it
 *          sets it to 0; on SETTINGS it is unchanged
 *
 * Returns the first of these statuses whose cause applies:
 *   SETTINGS  side, drawing or margin is out of its range, or the text has no line `row`
 *   ROOM      bits_len is less than QRPROVED_BITS(side)
 *   ROOM      text_len is less than the length of the line
 *   DONE      the call succeeded
 */
#define QRPROVED_ROW(drawing, side, margin) \
	(((drawing) == QRPROVED_UTF8 ? 3 : 2) * ((size_t)(side) + 2 * (size_t)(margin)) + 1)
QRPROVED_CALL(9)
uint8_t qrproved_draw_row(const uint8_t *bits, size_t bits_len, uint32_t side, uint32_t drawing, uint32_t margin, uint32_t row,
                          uint8_t *text, size_t text_len, size_t *written);

/* Writes the image of a square of modules as a file. Each module is a square of `scale` by `scale` pixels, and around the square
 * is a light margin. The buffer `modules` contains the modules, in the order in which qrproved_encode writes them. Any byte but 0
 * is a dark module, and bytes after the last module are ignored. A square need not be a symbol. The call leaves the rest of the
 * buffer `image` unchanged. It allocates no memory.
 *
 * side    number of modules on a side, from 1 to 177
 * format  QRPROVED_PNG to QRPROVED_ZPL
 * scale   pixels of a module on each side, from 1 to QRPROVED_SCALE_MAX
 * margin  number of light modules on each side of the square, from 0 to QRPROVED_MARGIN_MAX; a scanner needs 4
 * pixels_a_metre  how many pixels of the printed image a metre has, below 2^31, or 0 if the file is not to say it: 11,811 for
 *         300 pixels an inch. Only PNG can say it
 * left, top  how far the image is from the left and the upper edge of a label, in dots of the printer, from 0 to
 *         QRPROVED_PLACE_MAX. Only TSPL and ZPL can say it
 * image   the buffer for the file; it may be NULL if image_len is 0, to ask only for the length of the file
 * written  on DONE, and on ROOM because of image_len, the call sets it to the length of the file; on ROOM because of modules_len
 *         it sets it to 0; on SETTINGS it is unchanged
 *
 * Returns the first of these statuses whose cause applies:
 *   SETTINGS  side, format, scale, margin, pixels_a_metre, left or top is out of its range
 *   ROOM      modules_len is less than side times side
 *   ROOM      image_len is less than the length of the file
 *   DONE      the call succeeded
 */
QRPROVED_CALL(12)
uint8_t qrproved_image(const uint8_t *modules, size_t modules_len, uint32_t side, uint32_t format, uint32_t scale, uint32_t margin,
                       uint32_t pixels_a_metre, uint32_t left, uint32_t top, uint8_t *image, size_t image_len, size_t *written);

/* Writes the image of a square of modules as a PNG file in two colours. All that qrproved_image has too means the same here. It
 * allocates no memory.
 *
 * side    number of modules on a side, from 1 to 177
 * scale   pixels of a module on each side, from 1 to QRPROVED_SCALE_MAX
 * margin  number of light modules on each side of the square, from 0 to QRPROVED_MARGIN_MAX; a scanner needs 4
 * pixels_a_metre  how many pixels of the printed image a metre has, below 2^31, or 0 if the file is not to say it
 * dark, light  the colours of dark and of light modules, as 0xRRGGBBAA: red, green and blue, and how opaque the colour is, from
 *         0x00 for a colour that is not seen to 0xFF. The margin has the colour of light modules. Scanners need a dark colour on a
 *         light one; the call does not check this
 * image, written  as in qrproved_image
 *
 * Returns the first of these statuses whose cause applies:
 *   SETTINGS  side, scale, margin or pixels_a_metre is out of its range
 *   ROOM      modules_len is less than side times side
 *   ROOM      image_len is less than the length of the file
 *   DONE      the call succeeded
 */
QRPROVED_CALL(11)
uint8_t qrproved_png(const uint8_t *modules, size_t modules_len, uint32_t side, uint32_t scale, uint32_t margin,
                     uint32_t pixels_a_metre, uint32_t dark, uint32_t light, uint8_t *image, size_t image_len, size_t *written);

/* Writes squares of modules as a document for print, which says how large it is on paper. The squares all have the same side. An
 * SVG or EPS document has them one below the other, and a PDF document has a page for each. The buffers are as in qrproved_draw.
 *
 * side         number of modules on a side, from 1 to 177
 * count        number of squares, from 1 to QRPROVED_COUNT_MAX
 * format       QRPROVED_SVG_MM, QRPROVED_EPS or QRPROVED_PDF
 * margin       number of light modules on each side of each square, from 0 to QRPROVED_MARGIN_MAX; a scanner needs 4
 * micrometres  width of a module in micrometres, from 1 to 1,000,000
 * text         the buffer for the document; it may be NULL if text_len is 0, to ask only for the length of the document
 * written      on DONE, and on ROOM because of text_len, the call sets it to the length of the document; on ROOM because of
 *              modules_len it sets it to 0; on every other status it is unchanged
 *
 * Returns the first of these statuses whose cause applies:
 *   SETTINGS  side, count, format, margin or micrometres is out of its range
 *   ROOM      modules_len is less than count times side times side
 *   ROOM      text_len is less than the length of the document
 *   DONE      the call succeeded
 * If memory is refused, the call returns MEMORY in place of any status after the first ROOM. The call makes the document in
 * memory that it allocates, and copies it to the buffer `text` when it is complete.
 */
QRPROVED_CALL(10)
uint8_t qrproved_document(const uint8_t *modules, size_t modules_len, uint32_t side, uint32_t count, uint32_t format,
                          uint32_t margin, uint32_t micrometres, uint8_t *text, size_t text_len, size_t *written);

/* Writes squares of modules as a PDF document in two colours, with a page for each. All that qrproved_document has too means the
 * same here.
 *
 * side         number of modules on a side, from 1 to 177
 * count        number of squares, from 1 to QRPROVED_COUNT_MAX
 * margin       number of light modules on each side of each square, from 0 to QRPROVED_MARGIN_MAX; a scanner needs 4
 * micrometres  width of a module in micrometres, from 1 to 1,000,000
 * dark, light  the colours of dark and of light modules, as 0xRRGGBBAA: red, green and blue, and 0xFF. If the last byte of `light`
 *              is 0x00, light modules and the margin are not drawn, so that what is below shows through. Scanners need a dark
 *              colour on a light one; the call does not check this
 * text, written  as in qrproved_document
 *
 * Returns the first of these statuses whose cause applies:
 *   SETTINGS  side, count, margin or micrometres is out of its range, the last byte of dark is not 0xFF, or that of light is neither
 *             0xFF nor 0x00
 *   ROOM      modules_len is less than count times side times side
 *   ROOM      text_len is less than the length of the document
 *   DONE      the call succeeded
 * If memory is refused, the call returns MEMORY in place of any status after the first ROOM.
 */
QRPROVED_CALL(11)
uint8_t qrproved_pdf(const uint8_t *modules, size_t modules_len, uint32_t side, uint32_t count, uint32_t margin,
                     uint32_t micrometres, uint32_t dark, uint32_t light, uint8_t *text, size_t text_len, size_t *written);

/* Writes squares of modules as labels on sheets of label paper: a PDF document, in which each page is as large as the paper. The
 * squares all have the same side. A label is a square with its margin. The first `first` places of the first page stay free. Then
 * each place has the next label, row by row from the upper left, and the label's upper left corner is that of the place. There are as
 * many pages as the labels need. The buffers are as in qrproved_draw.
 *
 * side         number of modules on a side, from 1 to 177
 * count        number of squares, from 1 to QRPROVED_LABELS_MAX
 * margin       number of light modules on each side of each square, from 0 to QRPROVED_MARGIN_MAX; a scanner needs 4
 * micrometres  width of a module in micrometres, from 1 to 1,000,000
 * sheet        the paper. A label has to be on the paper in each place, also in places that stay free. With more than one column it may
 *              not be wider than `across`, and with more than one row not higher than `down`, so that no label covers another
 * text         the buffer for the document; it may be NULL if text_len is 0, to ask only for the length of the document
 * written      on DONE, and on ROOM because of text_len, the call sets it to the length of the document; on ROOM because of
 *              modules_len it sets it to 0; on every other status it is unchanged
 *
 * Returns the first of these statuses whose cause applies:
 *   SETTINGS  side, count, margin, micrometres or a number of the sheet is out of its range, or a label does not fit its place
 *   ROOM      modules_len is less than count times side times side
 *   ROOM      text_len is less than the length of the document
 *   DONE      the call succeeded
 * If memory is refused, the call returns MEMORY in place of any status after the first ROOM. The call makes the document in
 * memory that it allocates, and copies it to the buffer `text` when it is complete.
 */
QRPROVED_CALL_2(7, 10)
uint8_t qrproved_sheets(const uint8_t *modules, size_t modules_len, uint32_t side, uint32_t count, uint32_t margin,
                        uint32_t micrometres, const struct qrproved_sheet *sheet, uint8_t *text, size_t text_len,
                        size_t *written);

/* Parses a drawing, and writes the modules of its squares: modules[(k * side + row) * side + column] is the module of square
 * k in this row and column, where the first square has the number 0. In this order qrproved_read and qrproved_mend take the
 * modules of one square, and qrproved_draw those of all squares. Bytes of the buffer after the last module are unchanged.
 *
 * A text is a drawing if it is, byte for byte, what qrproved_draw would write for 1 to 16 squares, all with the same side from
 * 8 to 177. The margin may be from 0 to 255 modules, although qrproved_draw and qrencode refuse a margin above
 * QRPROVED_MARGIN_MAX. Each square has to begin as every symbol does: the module in row 0 and column 0 is dark, and the module
 * in row 0 and column 7 is light. No text is the drawing of two different lists of squares, or of two types or two margins.
 * The call does not say whether a square is a symbol; qrproved_read and qrproved_mend do. If a text has line ends of two bytes
 * or a byte order mark, or has lost spaces at line ends, it is no drawing.
 *
 * text     the drawing; no byte 0 follows it
 * modules  the buffer for the modules; QRPROVED_SERIES_MAX bytes suffice for any drawing
 *
 * Returns the first of these statuses whose cause applies:
 *   NO_DRAWING  the text is no drawing
 *   ROOM        modules_len is less than the number of modules of all squares
 *   DONE        the call succeeded
 * If memory is refused, the call returns MEMORY in place of any of these.
 */
QRPROVED_CALL(5)
uint8_t qrproved_parse_drawing(const uint8_t *text, size_t text_len, uint8_t *modules, size_t modules_len,
                               struct qrproved_drawn *drawn);

/* Finds symbols in a picture in grey: turned, tilted, mirrored, light on dark, in shadow, blurred or small. If a picture shows one
 * symbol that can be mended and nothing else, drawn without any fault, exactly this symbol is found, with exactly its modules. Other
 * pictures are searched, and nothing is promised of which symbols are found there; but the modules of each square that is found are
 * what sampling gives for the picture and these corners. In a square that counts as read at most one module in five is wrong or not
 * known; in a picture that is searched it is at most one in ten, if more than one in eight modules of its timing patterns is wrong or
 * not known. And if a codeword of a block has a module that is not known, at least three of the codewords that correct the block are
 * left, when one is taken for each codeword that is wrong or has such a module.
 *
 * The modules of square k are written to modules[k * QRPROVED_SYMBOL_MAX] and the bytes that follow, row by row as qrproved_mend takes
 * them: 0 is a light module, 1 is a dark module, and 2 is a module that is not known. The other bytes of the buffer are unchanged. Its
 * corners and other numbers are written to found[k]; structs after the last square are unchanged. Squares that can be mended come
 * first. If nothing is found, the call returns DONE and sets count to 0.
 *
 * pixels  a byte for each pixel, from 0 for black to 255 for white, row by row. Row y begins at byte y * stride, and the first is
 *         that at the top. Bytes between the rows are ignored
 * width, height  pixels of a row, and number of rows, from 1 to QRPROVED_PICTURE_MAX
 * stride  number of bytes from the beginning of a row to that of the next, at least width
 * unread  0: only squares that can be mended are found; 1: squares that look like symbols and cannot be mended are found too
 * modules  the buffer for the modules. It has QRPROVED_SYMBOL_MAX bytes for each square that may be found
 * found   the buffer for the structs. At most found_len squares are found, and at most QRPROVED_FOUND_MAX
 * count   on DONE, the call sets it to the number of squares; on every other status it is unchanged
 *
 * Returns the first of these statuses whose cause applies:
 *   SETTINGS  width, height, stride or unread is out of its range
 *   ROOM      pixels_len is less than (height - 1) * stride + width, or modules_len is less than QRPROVED_SYMBOL_MAX for each square
 *             that may be found
 *   DONE      the call succeeded
 * If memory is refused, the call returns MEMORY in place of DONE. Its memory grows with the picture: docs/LIBRARY.md says how much.
 */
QRPROVED_CALL(11)
uint8_t qrproved_find(const uint8_t *pixels, size_t pixels_len, uint32_t width, uint32_t height, uint32_t stride, uint32_t unread,
                      uint8_t *modules, size_t modules_len, struct qrproved_found *found, size_t found_len, size_t *count);

/* Says how many characters fit a symbol if all of them are in one segment, that is, in one mode.
 *
 * version  the version of the symbol, from 1 to 40
 * level    QRPROVED_LEVEL_L to QRPROVED_LEVEL_H
 * mode     QRPROVED_MODE_NUMERIC to QRPROVED_MODE_KANJI. In kanji mode a character has two bytes, and in the other modes one
 * interpretation  what the symbol says of its data, as in qrproved_encode
 * header   1: the symbol has a structured append header, as each symbol of a series of several symbols has; 0: it has none
 * count    on DONE, the call sets it to the greatest number of characters that one segment can have, from 0 to
 *          QRPROVED_BYTES_MAX; on every other status it is unchanged
 *
 * In GS1 data alphanumeric mode writes % as two characters, so there fewer bytes may fit than characters. An input in several
 * modes takes further segments, and of such an input this call does not say whether it fits.
 *
 * Returns the first of these statuses whose cause applies:
 *   SETTINGS  version, level, mode, interpretation or header is out of its range; or mode is KANJI, and interpretation is an
 *             ECI other than 20
 *   DONE      the call succeeded
 * The call allocates no memory.
 */
QRPROVED_CALL(6)
uint8_t qrproved_room(uint32_t version, uint32_t level, uint32_t mode, uint32_t interpretation, uint32_t header,
                      uint32_t *count);

#ifdef QRPROVED_CALLER_MEMORY
/* The calls above with memory of the caller in place of malloc. Only the C file qrproved.c has them, and libqrproved does not: a
 * program that is linked with that file defines QRPROVED_CALLER_MEMORY before it includes this header. Each call returns and writes
 * what the call without `_in` does.
 *
 * memory      memory that nothing else uses during the call. It may begin at any address, and what it contains after the call has
 *             no meaning
 * memory_len  number of its bytes. If they are too few, the call returns MEMORY, and everything else is unchanged
 *
 * The macros say how many bytes are enough for a call with each level, rule and interpretation. This is tested, and not proved.
 * `version` is the greatest version of a symbol that the call makes or is given. Each other argument is the greatest number that is
 * passed to the call, or for a drawing that is parsed the number that it shows. A text that is no drawing may need more. */
#define QRPROVED_ENCODE_MEMORY(version) \
	(3000 + 1050 * (size_t)(version) + 14 * (size_t)(version) * (version) + ((version) > 26 ? 16000 : 0))
#define QRPROVED_ENCODE_LOGO_MEMORY(version) (QRPROVED_ENCODE_MEMORY(version) + 1000)
#define QRPROVED_ENCODE_SERIES_MEMORY(version, count) \
	(QRPROVED_ENCODE_MEMORY(version) + (size_t)(count) * (600 + 380 * (size_t)(version) + 12 * (size_t)(version) * (version)))
#define QRPROVED_SET_MASK_MEMORY(version) (3300 + 770 * (size_t)(version) + 3 * (size_t)(version) * (version))
#define QRPROVED_READ_MEMORY(version) (2500 + 1500 * (size_t)(version) + 105 * (size_t)(version) * (version))
#define QRPROVED_MEND_MEMORY(version) (QRPROVED_READ_MEMORY(version) + 2500 + 700 * (size_t)(version))
#define QRPROVED_DRAW_MEMORY(drawing, side, count, margin) \
	(3000 + (size_t)(count) * ((drawing) == QRPROVED_SVG ? 18 * (size_t)(side) * (side) : 5 * QRPROVED_AREA(side, margin)))
#define QRPROVED_DOCUMENT_MEMORY(side, count) (5000 + (size_t)(count) * (1500 + 18 * (size_t)(side) * (side)))
#define QRPROVED_PDF_MEMORY(side, count) QRPROVED_DOCUMENT_MEMORY(side, count)
#define QRPROVED_SHEETS_MEMORY(side, count) (5000 + (size_t)(count) * (1500 + 18 * (size_t)(side) * (side)))
#define QRPROVED_PARSE_DRAWING_MEMORY(side, count, margin) \
	(4500 + (size_t)(count) * (16 * (size_t)(side) * (side) + 4 * QRPROVED_AREA(side, margin)))
#define QRPROVED_FIND_MEMORY(width, height) (1000000 + (size_t)(width) * (height) * 7 / 2)
#define QRPROVED_AREA(side, margin) (((size_t)(side) + 2 * (size_t)(margin)) * ((size_t)(side) + 2 * (size_t)(margin)))
QRPROVED_CALL(12)
uint8_t qrproved_encode_in(void *memory, size_t memory_len, const uint8_t *input, size_t input_len, uint32_t version,
                           uint32_t level, uint32_t rule, uint32_t interpretation, uint32_t boost, uint8_t *modules,
                           size_t modules_len, struct qrproved_symbol *symbol);
QRPROVED_CALL(12)
uint8_t qrproved_encode_bits_in(void *memory, size_t memory_len, const uint8_t *input, size_t input_len, uint32_t version,
                                uint32_t level, uint32_t rule, uint32_t interpretation, uint32_t boost, uint8_t *bits,
                                size_t bits_len, struct qrproved_symbol *symbol);
QRPROVED_CALL_2(13, 14)
uint8_t qrproved_encode_logo_in(void *memory, size_t memory_len, const uint8_t *input, size_t input_len, uint32_t version,
                                uint32_t level, uint32_t rule, uint32_t interpretation, uint32_t logo, uint32_t share,
                                uint8_t *modules, size_t modules_len, struct qrproved_symbol *symbol, uint8_t *largest);
QRPROVED_CALL(11)
uint8_t qrproved_encode_series_in(void *memory, size_t memory_len, const uint8_t *input, size_t input_len, uint32_t version,
                                  uint32_t level, uint32_t rule, uint32_t interpretation, uint8_t *modules, size_t modules_len,
                                  struct qrproved_series *series);
QRPROVED_RESULT
uint8_t qrproved_set_mask_in(void *memory, size_t memory_len, uint8_t *modules, size_t modules_len, uint32_t side, uint32_t mask);
QRPROVED_CALL(10)
uint8_t qrproved_read_in(void *memory, size_t memory_len, const uint8_t *modules, size_t modules_len, uint32_t side,
                         uint8_t *bytes, size_t bytes_len, struct qrproved_eci *ecis, size_t ecis_len,
                         struct qrproved_content *content);
QRPROVED_CALL(10)
uint8_t qrproved_mend_in(void *memory, size_t memory_len, const uint8_t *modules, size_t modules_len, uint32_t side,
                         uint8_t *bytes, size_t bytes_len, struct qrproved_eci *ecis, size_t ecis_len,
                         struct qrproved_mended *mended);
QRPROVED_CALL(11)
uint8_t qrproved_draw_in(void *memory, size_t memory_len, const uint8_t *modules, size_t modules_len, uint32_t side,
                         uint32_t count, uint32_t drawing, uint32_t margin, uint8_t *text, size_t text_len, size_t *written);
QRPROVED_CALL(12)
uint8_t qrproved_document_in(void *memory, size_t memory_len, const uint8_t *modules, size_t modules_len, uint32_t side,
                             uint32_t count, uint32_t format, uint32_t margin, uint32_t micrometres, uint8_t *text,
                             size_t text_len, size_t *written);
QRPROVED_CALL(13)
uint8_t qrproved_pdf_in(void *memory, size_t memory_len, const uint8_t *modules, size_t modules_len, uint32_t side, uint32_t count,
                        uint32_t margin, uint32_t micrometres, uint32_t dark, uint32_t light, uint8_t *text, size_t text_len,
                        size_t *written);
QRPROVED_CALL_2(9, 12)
uint8_t qrproved_sheets_in(void *memory, size_t memory_len, const uint8_t *modules, size_t modules_len, uint32_t side,
                           uint32_t count, uint32_t margin, uint32_t micrometres, const struct qrproved_sheet *sheet,
                           uint8_t *text, size_t text_len, size_t *written);
QRPROVED_CALL(7)
uint8_t qrproved_parse_drawing_in(void *memory, size_t memory_len, const uint8_t *text, size_t text_len, uint8_t *modules,
                                  size_t modules_len, struct qrproved_drawn *drawn);
QRPROVED_CALL(13)
uint8_t qrproved_find_in(void *memory, size_t memory_len, const uint8_t *pixels, size_t pixels_len, uint32_t width, uint32_t height,
                         uint32_t stride, uint32_t unread, uint8_t *modules, size_t modules_len, struct qrproved_found *found,
                         size_t found_len, size_t *count);
#endif

#undef QRPROVED_CALL
#undef QRPROVED_CALL_2

#ifdef __cplusplus
}
#endif

#endif
