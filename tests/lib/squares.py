"""A model of symbols that uses nothing of the crates (ISO/IEC 18004:2015, 6.3, 7.3 to 7.10). It says what each module
of a square is for, which blocks a version and a level have, and what a damaged square contains. A square is here a
sequence of bytes, row by row, 1 for a dark module and 0 for a light one. A place is a number: the row times the side,
plus the column.

The tables were typed from the standard. tests/mended checks them before it uses them."""
import functools
import operator
from typing import NamedTuple, Optional

from decoder import correction, mended

LEVELS = "LMQH"
LEVEL_BITS = {"L": 1, "M": 0, "Q": 3, "H": 2}

# Table 9: error correction codewords of a block, and blocks, of versions 1 to 40.
CORRECTION = {
    "L": [7, 10, 15, 20, 26, 18, 20, 24, 30, 18, 20, 24, 26, 30, 22, 24, 28, 30, 28, 28,
          28, 28, 30, 30, 26, 28, 30, 30, 30, 30, 30, 30, 30, 30, 30, 30, 30, 30, 30, 30],
    "M": [10, 16, 26, 18, 24, 16, 18, 22, 22, 26, 30, 22, 22, 24, 24, 28, 28, 26, 26, 26,
          26, 28, 28, 28, 28, 28, 28, 28, 28, 28, 28, 28, 28, 28, 28, 28, 28, 28, 28, 28],
    "Q": [13, 22, 18, 26, 18, 24, 18, 22, 20, 24, 28, 26, 24, 20, 30, 24, 28, 28, 26, 30,
          28, 30, 30, 30, 30, 28, 30, 30, 30, 30, 30, 30, 30, 30, 30, 30, 30, 30, 30, 30],
    "H": [17, 28, 22, 16, 22, 28, 26, 26, 24, 28, 24, 28, 22, 24, 24, 30, 28, 28, 26, 28,
          30, 24, 30, 30, 30, 30, 30, 30, 30, 30, 30, 30, 30, 30, 30, 30, 30, 30, 30, 30],
}
BLOCKS = {
    "L": [1, 1, 1, 1, 1, 2, 2, 2, 2, 4, 4, 4, 4, 4, 6, 6, 6, 6, 7, 8,
          8, 9, 9, 10, 12, 12, 12, 13, 14, 15, 16, 17, 18, 19, 19, 20, 21, 22, 24, 25],
    "M": [1, 1, 1, 2, 2, 4, 4, 4, 5, 5, 5, 8, 9, 9, 10, 10, 11, 13, 14, 16,
          17, 17, 18, 20, 21, 23, 25, 26, 28, 29, 31, 33, 35, 37, 38, 40, 43, 45, 47, 49],
    "Q": [1, 1, 2, 2, 4, 4, 6, 6, 8, 8, 8, 10, 12, 16, 12, 17, 16, 18, 21, 20,
          23, 23, 25, 27, 29, 34, 34, 35, 38, 40, 43, 45, 48, 51, 53, 56, 59, 62, 65, 68],
    "H": [1, 1, 2, 4, 4, 4, 5, 6, 8, 8, 11, 11, 16, 16, 18, 16, 19, 21, 25, 25,
          25, 34, 30, 32, 35, 37, 40, 42, 45, 48, 51, 54, 57, 60, 63, 66, 70, 74, 77, 81],
}
# Table 9: codewords that are kept so that a block is not mended to another one; 0 for all others.
PROTECTION = {(1, "L"): 3, (1, "M"): 2, (1, "Q"): 1, (1, "H"): 1, (2, "L"): 2, (3, "L"): 1}
# Annex E: the rows and columns of the centres of alignment patterns, of versions 2 to 40.
CENTRES = [[], [6, 18], [6, 22], [6, 26], [6, 30], [6, 34], [6, 22, 38], [6, 24, 42], [6, 26, 46], [6, 28, 50], [6, 30, 54],
           [6, 32, 58], [6, 34, 62], [6, 26, 46, 66], [6, 26, 48, 70], [6, 26, 50, 74], [6, 30, 54, 78], [6, 30, 56, 82],
           [6, 30, 58, 86], [6, 34, 62, 90], [6, 28, 50, 72, 94], [6, 26, 50, 74, 98], [6, 30, 54, 78, 102],
           [6, 28, 54, 80, 106], [6, 32, 58, 84, 110], [6, 30, 58, 86, 114], [6, 34, 62, 90, 118],
           [6, 26, 50, 74, 98, 122], [6, 30, 54, 78, 102, 126], [6, 26, 52, 78, 104, 130], [6, 30, 56, 82, 108, 134],
           [6, 34, 60, 86, 112, 138], [6, 30, 58, 86, 114, 142], [6, 34, 62, 90, 118, 146], [6, 30, 54, 78, 102, 126, 150],
           [6, 24, 50, 76, 102, 128, 154], [6, 28, 54, 80, 106, 132, 158], [6, 32, 58, 84, 110, 136, 162],
           [6, 26, 54, 82, 110, 138, 166], [6, 30, 58, 86, 114, 142, 170]]
# Table 10: where a mask inverts the module in row i and column j.
INVERTS = [
    lambda i, j: (i + j) % 2 == 0,
    lambda i, j: i % 2 == 0,
    lambda i, j: j % 3 == 0,
    lambda i, j: (i + j) % 3 == 0,
    lambda i, j: (i // 2 + j // 3) % 2 == 0,
    lambda i, j: i * j % 2 + i * j % 3 == 0,
    lambda i, j: (i * j % 2 + i * j % 3) % 2 == 0,
    lambda i, j: ((i + j) % 2 + i * j % 3) % 2 == 0,
]
# Table 3: how many bits a segment's count has, in versions 1 to 9, 10 to 26 and 27 to 40, by the mode's indicator.
COUNT_WIDTHS = {1: (10, 12, 14), 2: (9, 11, 13), 4: (8, 16, 16), 8: (8, 10, 12)}
CHARACTERS = b"0123456789ABCDEFGHIJKLMNOPQRSTUVWXYZ $%*+-./:"


MARGIN = 4  # modules around a symbol


def ascii_of(modules, side, margin=MARGIN):
    """Returns the drawing of a square as ASCII."""
    light = b"  " * (side + 2 * margin) + b"\n"
    lines = [b"".join(b"##" if it else b"  " for it in modules[row * side:(row + 1) * side]) for row in range(side)]
    return light * margin + b"".join(b"  " * margin + line + b"  " * margin + b"\n" for line in lines) + light * margin


def picture(square, side, scale, margin):
    """Returns the lines of the picture of a square in which a module is `scale` pixels wide. A line is bytes, of which the left pixel is
    the highest bit, and 1 is black."""
    edge, light, width = ["0" * (side + 2 * margin)] * margin, "0" * margin, scale * (side + 2 * margin)
    rows = ["".join(map(str, square[at:at + side])) for at in range(0, side ** 2, side)]
    pixels = ["".join(module * scale for module in row) for row in [*edge, *(light + row + light for row in rows), *edge]]
    packed = [(int(row, 2) << -width % 8).to_bytes(-(-width // 8), "big") for row in pixels]
    return [line for line in packed for _ in range(scale)]


def largest_logo(version, level, share):
    """Returns the side of the largest square in the middle that leaves the first and the last nine rows and columns free, and with which
    each block has at most `share` percent of the wrong codewords that can be corrected."""
    at, middle = layout(version), (side_of(version) - 1) // 2
    # of each line the side of the smallest square that has a module in it: 1 in the middle, 2 just before it, 3 just after it
    first = [2 * (line - middle) + 1 if line >= middle else 2 * (middle - line) for line in range(at.side)]
    reached = [max(first[place // at.side], first[place % at.side]) for place in at.region]
    most = share * allowed(version, level) // 100
    # in a block, the codeword after the `most` that are covered first stays free
    return min(at.side - 18, *(sorted(min(reached[8 * i:8 * i + 8]) for i in block)[most] - 1 for block in blocks(version, level)))


def bits_below(word, divisor):
    """Returns the word, and in its low bits the remainder of its division by `divisor`, as polynomials over the field
    of two elements."""
    width = divisor.bit_length() - 1
    remainder = word << width
    while remainder.bit_length() > width:
        remainder ^= divisor << remainder.bit_length() - divisor.bit_length()
    return word << width | remainder


def format_word(level, mask):
    return bits_below(LEVEL_BITS[level] << 3 | mask, 0x537) ^ 0x5412


def version_word(version):
    return bits_below(version, 0x1F25)


def side_of(version):
    return 17 + 4 * version


# ---- the places of a square

class Layout:
    def __init__(self, version):
        self.version, self.side = version, side_of(version)
        side = self.side
        # The places of bit 0, bit 1 and so on of both copies of the format information.
        first = [(i, 8) for i in (0, 1, 2, 3, 4, 5, 7, 8)] + [(8, 7)] + [(8, 14 - i) for i in range(9, 15)]
        second = [(8, side - 1 - i) for i in range(8)] + [(side - 15 + i, 8) for i in range(8, 15)]
        self.formats = [[row * side + col for row, col in copy] for copy in (first, second)]
        version_bits = [(i // 3, side - 11 + i % 3) for i in range(18)] if version > 6 else []
        self.version_copies = [[row * side + col for row, col in copy] for copy in
                               (version_bits, [(col, row) for row, col in version_bits])]
        self.patterns = self.function_patterns()
        held = set(self.patterns).union(*self.formats, *self.version_copies)
        self.region = [row * side + col for row, col in self.zigzag() if row * side + col not in held]
        self.total = len(self.region) // 8
        self.remainder = self.region[8 * self.total:]
        self.region = self.region[:8 * self.total]
        self.of_region = operator.itemgetter(*self.region)

    def function_patterns(self):
        """Returns the colour of each place of the function patterns."""
        side, last, colours = self.side, self.side - 1, {}
        for i in range(side):
            colours[6 * side + i] = colours[i * side + 6] = 1 - i % 2
        centres = CENTRES[self.version - 1]
        for row in centres:
            for col in centres:
                if (row, col) in ((6, 6), (6, last - 6), (last - 6, 6)):
                    continue
                for i in range(-2, 3):
                    for j in range(-2, 3):
                        colours[(row + i) * side + col + j] = int(max(abs(i), abs(j)) != 1)
        # Finder patterns with their separators: rings round the centre.
        for row, col in ((3, 3), (3, last - 3), (last - 3, 3)):
            for i in range(-4, 5):
                for j in range(-4, 5):
                    if 0 <= row + i <= last and 0 <= col + j <= last:
                        colours[(row + i) * side + col + j] = int(max(abs(i), abs(j)) in (0, 1, 3))
        colours[(side - 8) * side + 8] = 1
        return colours

    def zigzag(self):
        """Yields all places but those of column 6, strip by strip from the right. A strip has two columns. The strips
        are read upwards and downwards in turn."""
        up = True
        for right in [*range(self.side - 1, 6, -2), 5, 3, 1]:
            for row in range(self.side - 1, -1, -1) if up else range(self.side):
                yield row, right
                yield row, right - 1
            up = not up

    @functools.lru_cache(None)
    def inverted(self, mask):
        """Returns the bits that a mask inverts, of the region's places in order and of the remainder bits, as numbers."""
        marks = ["".join(str(int(INVERTS[mask](*divmod(place, self.side)))) for place in places) or "0"
                 for places in (self.region, self.remainder)]
        return [int(it, 2) for it in marks]


@functools.lru_cache(None)
def layout(version):
    return Layout(version)


TO_DIGITS = bytes.maketrans(b"\0\1", b"01")
TO_BITS = bytes.maketrans(b"01", b"\0\1")


def codewords_of(square, version, mask):
    """Returns the codewords of a square, in the order in which they were placed."""
    at = layout(version)
    bits = int(bytes(at.of_region(square)).translate(TO_DIGITS), 2) ^ at.inverted(mask)[0]
    return bits.to_bytes(at.total, "big")


def bits_of(number, places):
    """Returns each of the places with its bit of a number, the highest bit first."""
    return zip(places, f"{number:0{len(places)}b}".encode().translate(TO_BITS)) if places else ()


def square_of(version, level, mask, codewords):
    """Returns the square of the symbol that has these codewords."""
    at = layout(version)
    square = bytearray(at.side ** 2)
    for place, colour in at.patterns.items():
        square[place] = colour
    for place, colour in bits_of(int.from_bytes(codewords, "big") ^ at.inverted(mask)[0], at.region):
        square[place] = colour
    for place, colour in bits_of(at.inverted(mask)[1], at.remainder):
        square[place] = colour
    for copies, word in ((at.formats, format_word(level, mask)), (at.version_copies, version_word(version))):
        for copy in copies:
            for i, place in enumerate(copy):
                square[place] = word >> i & 1
    return bytes(square)


# ---- blocks

@functools.lru_cache(None)
def blocks(version, level):
    """Returns for each block the codewords that it has, in order. A codeword is its index in the final sequence
    (7.6)."""
    count, n = BLOCKS[level][version - 1], CORRECTION[level][version - 1]
    short, longer = divmod(layout(version).total - count * n, count)
    tags = sorted((at, block) for block in range(count) for at in range(short + (block >= count - longer)))
    tags += [(-1, block) for _ in range(n) for block in range(count)]
    return [[i for i, (_, of) in enumerate(tags) if of == block] for block in range(count)]


def correction_len(version, level):
    return CORRECTION[level][version - 1]


def spendable(version, level):
    """Returns how many error correction codewords of a block may be spent for correction. A misread codeword takes two,
    and an erased one takes one."""
    return correction_len(version, level) - PROTECTION.get((version, level), 0)


def allowed(version, level):
    """Returns how many codewords of a block may be misread."""
    return spendable(version, level) // 2


def interleaved(version, level, data):
    """Returns the final sequence of the symbol with these data codewords."""
    n, start = correction_len(version, level), 0
    result = bytearray(layout(version).total)
    for block in blocks(version, level):
        part = data[start:start + len(block) - n]
        start += len(part)
        for i, codeword in zip(block, part + correction(part, n)):
            result[i] = codeword
    return bytes(result)


def room_of(version, level):
    """Returns how many bits the data codewords of a symbol have."""
    return 8 * (layout(version).total - BLOCKS[level][version - 1] * correction_len(version, level))


# How many bits the characters of a group take: up to three digits, up to two characters of alphanumeric mode, a byte, a kanji.
GROUPS = {1: (0, 4, 7, 10), 2: (0, 6, 11), 4: (0, 8), 8: (0, 13)}


def most_characters(version, level, mode, before):
    """Returns how many characters fit one segment of a mode, which is given by its indicator, after so many bits."""
    groups, count, room = GROUPS[mode], 0, room_of(version, level) - before - 4 - width(version, COUNT_WIDTHS[mode])
    whole = len(groups) - 1
    while groups[whole] * ((count + 1) // whole) + groups[(count + 1) % whole] <= room:
        count += 1
    return count


def in_bytes(version, level, text):
    """Returns data codewords that say a text in byte mode, with zeros after it."""
    bits = f"0100{len(text):0{width(version, COUNT_WIDTHS[4])}b}" + "".join(f"{byte:08b}" for byte in text)
    room = room_of(version, level)
    return int(bits.ljust(room, "0"), 2).to_bytes(room // 8, "big")


# ---- what data codewords say

class Unparsed(Exception):
    """The data codewords cannot be parsed."""


class Bits:
    """The bits of codewords, taken from the front."""

    def __init__(self, codewords):
        self.bits = f"{int.from_bytes(codewords, 'big'):0{8 * len(codewords)}b}"
        self.at = 0

    def left(self):
        return len(self.bits) - self.at

    def take(self, count):
        if self.left() < count:
            raise Unparsed("cut")
        self.at += count
        return int(self.bits[self.at - count:self.at], 2) if count else 0


def width(version, widths):
    return widths[(version > 9) + (version > 26)]


def digits_of(bits, count):
    text = ""
    while count:
        group = min(count, 3)
        number = bits.take([4, 7, 10][group - 1])
        if number >= 10 ** group:
            raise Unparsed("value")
        text, count = text + f"{number:0{group}}", count - group
    return text.encode()


def characters_of(bits, count):
    text = []
    while count:
        group = min(count, 2)
        number = bits.take([6, 11][group - 1])
        if number >= 45 ** group:
            raise Unparsed("value")
        text += divmod(number, 45) if group == 2 else [number]
        count -= group
    return bytes(CHARACTERS[it] for it in text)


def pairs_of(bits, count):
    text = b""
    for _ in range(count):
        high, low = divmod(bits.take(13), 0xC0)
        if low > 0xBC:
            raise Unparsed("value")
        number = (high << 8 | low) + (0x8140 if high <= 0x1E else 0xC140)
        text += number.to_bytes(2, "big")
    return text


def payload_len(mode, count):
    if mode == 1:
        return count // 3 * 10 + [0, 4, 7][count % 3]
    if mode == 2:
        return count // 2 * 11 + count % 2 * 6
    return count * (8 if mode == 4 else 13)


ECI, FNC1_FIRST, FNC1_SECOND = 7, 5, 9  # mode indicators


def designator_of(bits):
    """Returns the number of an ECI: 7, 14 or 21 bits after 0, 10 or 110, of at most six digits."""
    first = bits.take(8)
    if first < 0x80:
        return first
    if first < 0xC0:
        return (first & 0x3F) << 8 | bits.take(8)
    if first >= 0xE0:
        raise Unparsed("value")
    number = (first & 0x1F) << 16 | bits.take(16)
    if number > 999999:
        raise Unparsed("value")
    return number


def application_of(bits):
    """Returns an application indicator: two digits, or a letter's ASCII code plus 100."""
    number = bits.take(8)
    if number >= 100 and not (number - 100 < 128 and chr(number - 100).isalpha()):
        raise Unparsed("value")
    return number


def after_fnc1(text):
    """Returns what characters after FNC1 stand for: %% is %, and another % separates fields."""
    return text.replace(b"%%", b"\0").replace(b"%", b"\x1d").replace(b"\0", b"%")


class Said(NamedTuple):
    """What data codewords say: bytes, a header of position, symbols less 1 and parity, or None, the bytes before each ECI header
    with its number, the position of FNC1 with its application indicator, or zeros, and 1 if a segment is in kanji mode."""

    text: bytes = b""
    header: Optional[tuple] = None
    ecis: tuple = ()
    fnc1: tuple = (0, 0)
    kanji: int = 0

    def fields(self):
        """Returns them in the words of the library's struct."""
        return {"bytes": self.text, "len": len(self.text), "ecis": list(self.ecis), "eci_count": len(self.ecis),
                "has_header": int(self.header is not None), **dict(zip(("position", "last", "parity"), self.header or (0, 0, 0))),
                **dict(zip(("fnc1", "application"), self.fnc1)), "has_kanji": self.kanji}


def parsed(data, version):
    """Returns what data codewords say."""
    bits, text, header, ecis, fnc1 = Bits(data), b"", None, [], (0, 0)
    before = set()  # the modes that came before
    while bits.left() >= 4 and (mode := bits.take(4)):
        if mode == 3 and not before:
            header = bits.take(4), bits.take(4), bits.take(8)
        elif mode == ECI:
            ecis.append((len(text), designator_of(bits)))
        elif mode in (FNC1_FIRST, FNC1_SECOND) and before <= {3, ECI}:
            fnc1 = (1, 0) if mode == FNC1_FIRST else (2, application_of(bits))
        elif mode in COUNT_WIDTHS:
            count = bits.take(width(version, COUNT_WIDTHS[mode]))
            if bits.left() < payload_len(mode, count):
                raise Unparsed("cut")
            if mode == 4:
                text += bits.take(8 * count).to_bytes(count, "big")
            else:
                part = {1: digits_of, 2: characters_of, 8: pairs_of}[mode](bits, count)
                text += after_fnc1(part) if mode == 2 and fnc1 != (0, 0) else part
        else:
            raise Unparsed("mode")
        before.add(mode)
    return Said(text, header, tuple(ecis), fnc1, int(8 in before))


# ---- the reading of a damaged square

def format_cost(given, version, level, mask):
    """Returns for each copy of the format information how many modules are not known, and twice how many others are wrong."""
    word = format_word(level, mask)
    return [sum(1 if given[place] == 2 else 2 * (given[place] != word >> i & 1) for i, place in enumerate(copy))
            for copy in layout(version).formats]


def formats_near(given, version):
    """Returns the levels and masks for which one copy costs at most 6. They are sorted by the cost of both copies, the
    least first."""
    costs = {(level, mask): format_cost(given, version, level, mask) for level in LEVELS for mask in range(8)}
    near = [it for copy in (0, 1) for it in costs if costs[it][copy] <= 6]
    return sorted(dict.fromkeys(near), key=lambda it: sum(costs[it]))


def erased_in(square, version):
    """Returns the indices of the codewords that have a module that is not known, whose byte is 2."""
    return {k // 8 for k, place in enumerate(layout(version).region) if square[place] == 2}


def mended_codewords(square, version, level, mask, erased=frozenset()):
    """Returns the codewords of a square with each block mended, and how many codewords of each block were misread,
    without the erased ones. Returns None if a block cannot be mended."""
    received = codewords_of(square, version, mask)
    result, changed = bytearray(received), []
    for block in blocks(version, level):
        part = bytes(received[i] for i in block)
        unread = [k for k, i in enumerate(block) if i in erased]
        whole = mended(part, correction_len(version, level), spendable(version, level), unread)
        if whole is None:
            return None
        changed.append(sum(a != b for i, a, b in zip(block, part, whole) if i not in erased))
        for i, codeword in zip(block, whole):
            result[i] = codeword
    return bytes(result), changed


def data_of(version, level, codewords):
    """Returns the data codewords, in order."""
    n = correction_len(version, level)
    return bytes(codewords[i] for block in blocks(version, level) for i in block[:len(block) - n])


def differences(a, b):
    return sum(map(operator.ne, a, b))


def damage_of(given, whole, version, level):
    """Compares a damaged square with the symbol that it was, and returns its damage in the fields of the library's struct.
    A module of the damaged square is 0, 1, or 2 if it is not known, and then it counts as dark in a codeword."""
    formats = [sum(given[place] != whole[place] for place in copy) for copy in layout(version).formats]
    erased = erased_in(given, version)
    other = {k // 8 for k, place in enumerate(layout(version).region) if min(given[place], 1) != whole[place]}
    counts = [(len(other & set(block) - erased), len(erased & set(block)), len(erased & other & set(block)))
              for block in blocks(version, level)]
    worst = max(counts, key=lambda count: count[0] + count[1])
    return {
        "wrong_modules": differences(given, whole), "wrong_format_modules": sum(formats), "wrong_format_least": min(formats),
        "changed_most": max(misread for misread, _, _ in counts), "changed_allowed": allowed(version, level),
        "spent_most": max(unknown + 2 * misread for misread, unknown, _ in counts),
        **dict(zip(("worst_misread", "worst_unknown", "worst_unknown_wrong"), worst)),
    }


def reading(given, version):
    """Returns what a damaged square says, in the fields of the library's struct, or the name of the status. A module is
    0, 1, or 2 if it is not known."""
    erased, square = erased_in(given, version), bytes(min(module, 1) for module in given)
    near = formats_near(given, version)
    if not near:
        return "FORMAT"
    for level, mask in near:
        found = mended_codewords(square, version, level, mask, erased)
        if found:
            break
    else:
        return "CHECK"
    codewords, changed = found
    try:
        said = parsed(data_of(version, level, codewords), version)
    except Unparsed:
        return "SEGMENTS"
    whole = square_of(version, level, mask, codewords)
    return {**said.fields(), "version": version, "level": LEVELS.index(level), "mask": mask,
            **damage_of(given, whole, version, level), "changed_most": max(changed)}
