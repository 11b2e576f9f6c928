"""Symbols of the library, and damaged forms of them. Each comes with the result that mending it should have. They are
the same on every machine."""
import random

import squares
from squares import LEVELS, Unparsed, allowed, damage_of, format_word, interleaved, layout, reading, square_of

AUTO = 0  # the number of the rule


class Numbers:
    """A fixed sequence of numbers for a name, the same on every machine."""

    def __init__(self, *name):
        self.random = random.Random(" ".join(map(str, name))).random

    def below(self, bound):
        return int(self.random() * bound)

    def some(self, items, count):
        """Returns `count` of the items, each at most once."""
        items = list(items)
        for i in range(count):
            k = i + self.below(len(items) - i)
            items[i], items[k] = items[k], items[i]
        return items[:count]

    def one(self, items):
        return items[self.below(len(items))]

    def bytes(self, length, of=bytes(range(256))):
        return bytes(self.one(of) for _ in range(length))


def bits_of_kind(mode, count, version):
    return 4 + squares.width(version, squares.COUNT_WIDTHS[mode]) + squares.payload_len(mode, count)


def input_of(version, level):
    """Returns an input for a version and a level: bytes, digits or characters that fill the symbol, as many bytes of mixed
    modes, or fewer."""
    numbers = Numbers("input", version, level)
    room = squares.room_of(version, level)
    kind = (version + LEVELS.index(level)) % 5
    mode, of = [(4, bytes(range(256))), (1, b"0123456789"), (2, squares.CHARACTERS), (4, b""), (4, bytes(range(256)))][kind]
    most = next(count for count in range(room * 3 // 10, 0, -1) if bits_of_kind(mode, count, version) <= room)
    if kind == 3:
        runs = (numbers.bytes(1 + numbers.below(24), numbers.one([b"0123456789", squares.CHARACTERS, bytes(range(97, 123))]))
                for _ in range(most))
        return b"".join(runs)[:most]
    return numbers.bytes(1 + numbers.below(most) if kind == 4 else most, of)


def wanted_of(data, version, level, mask, **others):
    """Returns what is told of the sound symbol of an input, but for the fields that are given."""
    none = dict.fromkeys(("wrong_modules", "wrong_format_modules", "wrong_format_least", "changed_most", "spent_most", "worst_misread",
                          "worst_unknown", "worst_unknown_wrong"), 0)
    fields = {**squares.Said(data).fields(), "version": version, "level": LEVELS.index(level), "mask": mask, **none,
              "changed_allowed": allowed(version, level)}
    return {**fields, **others}


def inverted(square, places):
    """Returns the square with the modules in these places inverted."""
    result = bytearray(square)
    for place in places:
        result[place] ^= 1
    return bytes(result)


def unread(square, places):
    """Returns the square with the modules in these places not known."""
    result = bytearray(square)
    for place in places:
        result[place] = 2
    return bytes(result)


def places_of(version, wrong):
    """Returns the modules that make codewords wrong: a number other than 0 for each."""
    region = layout(version).region
    return [region[8 * i + bit] for i, by in wrong.items() for bit in range(8) if by << bit & 128]


def wrong_codewords(numbers, version, level, counts_of_blocks):
    """Returns the modules that make so many codewords of each block wrong."""
    wrong = {}
    for block, count in zip(squares.blocks(version, level), counts_of_blocks):
        wrong.update((i, 1 + numbers.below(255)) for i in numbers.some(block, count))
    return places_of(version, wrong)


def distances(word):
    """Returns in how many bits a word differs from each word of format information."""
    return {(level, mask): bin(word ^ format_word(level, mask)).count("1") for level in LEVELS for mask in range(8)}


def far_word(numbers):
    """Returns a word that is near to no word of format information."""
    while True:
        word = numbers.below(1 << 15)
        if min(distances(word).values()) > 3:
            return word


def to_word(square, version, copy, word):
    """Returns the modules that have to be inverted so that a copy of the format information is this word."""
    return [place for i, place in enumerate(layout(version).formats[copy]) if square[place] != word >> i & 1]


class Case:
    """A symbol of a version and a level, with each kind of damage."""

    def __init__(self, library, version, level):
        self.version, self.level, self.side = version, level, squares.side_of(version)
        self.data = input_of(version, level)
        self.square, symbol = library.symbol((self.data, version, level, AUTO))
        self.mask = symbol.mask
        self.wanted = wanted_of(self.data, version, level, self.mask)
        self.numbers = Numbers("damage", version, level)
        self.bound = allowed(version, level)
        self.block_count = squares.BLOCKS[level][version - 1]
        at = layout(version)
        self.first, self.second = at.formats
        self.outside = {"function patterns": list(at.patterns), "version information": sum(at.version_copies, []),
                        "remainder bits": at.remainder}

    def told(self, square, wrong_modules, wrong_format_modules, changed_most):
        """Returns a damaged square, and the result that mending it should have. The model compares the square with the
        symbol, and the numbers that are passed are those that the damage was made of."""
        return square, {**self.wanted, **damage_of(square, self.square, self.version, self.level), "wrong_modules": wrong_modules,
                        "wrong_format_modules": wrong_format_modules, "changed_most": changed_most}

    def damaged(self, places, wrong_format_modules, changed_most):
        """Returns the square with these modules inverted, and the result that mending it should have."""
        return self.told(inverted(self.square, places), len(places), wrong_format_modules, changed_most)

    def codewords_wrong(self, *more):
        """Returns modules that make as many codewords of each block wrong as can be mended. In the first blocks as many
        more are wrong as `more` lists."""
        blocks = [self.bound] * self.block_count
        for k, others in enumerate(more):
            blocks[k] += others
        return wrong_codewords(self.numbers, self.version, self.level, blocks)

    def to_the_bound(self):
        return self.damaged(self.codewords_wrong() + self.numbers.some(self.first, 3), 3, self.bound)

    def without_first_copy(self):
        """The first copy is near to no format information, and three modules of the second are wrong. All function
        patterns, version information and remainder bits are wrong too."""
        lost = to_word(self.square, self.version, 0, far_word(self.numbers))
        others = sum(self.outside.values(), [])
        return self.damaged(self.codewords_wrong() + lost + self.numbers.some(self.second, 3) + others, len(lost) + 3, self.bound)

    def by_a_wrong_first_copy(self):
        """The first copy is near to the format information of another level or mask. If the blocks can be mended with
        these too, the model says what is wanted."""
        codewords = self.codewords_wrong()
        level, mask = self.level, self.mask
        while (level, mask) == (self.level, self.mask):
            level, mask = self.numbers.one(LEVELS), self.numbers.below(8)
        word = format_word(level, mask)
        for bit in self.numbers.some(range(15), self.numbers.below(4)):
            word ^= 1 << bit
        lost = to_word(self.square, self.version, 0, word)
        square, wanted = self.damaged(codewords + lost + self.numbers.some(self.second, 3), len(lost) + 3, self.bound)
        if squares.mended_codewords(inverted(self.square, codewords), self.version, level, mask):
            wanted = reading(square, self.version)
        return square, wanted

    def torn(self):
        """A corner is torn off, as large as can be mended: its modules are not known. It has modules of at most one
        copy of the format information, or modules of both that cost at most 13."""
        at, last = layout(self.version), self.side - 1
        blocks = squares.blocks(self.version, self.level)
        block_of = {i: block for block, listed in enumerate(blocks) for i in listed}
        owners = {place: n // 8 for n, place in enumerate(at.region)}
        row, col = self.numbers.one([0, last]), self.numbers.one([0, last])
        places = []
        for k in range(1, self.side + 1):
            corner = [abs(row - i) * self.side + abs(col - j) for i in range(k) for j in range(k)]
            erased = [block_of[i] for i in {owners[place] for place in corner if place in owners}]
            copies = [len(set(copy) & set(corner)) for copy in at.formats]
            if max(map(erased.count, erased), default=0) > squares.spendable(self.version, self.level) or min(copies) and sum(copies) > 13:
                break
            places, of_format = corner, sum(copies)
        return self.told(unread(self.square, places), len(places), of_format, 0)

    def toward_another_level(self, copy):
        """Only modules of the format information are wrong, at most six. They make one copy near to the format
        information of another level with the same mask. If there is a level with the same number of blocks, it is
        taken: if it is weaker, the blocks can be mended with it too."""
        alike = [level for level in LEVELS if level != self.level
                 and squares.BLOCKS[level][self.version - 1] == self.block_count] or [it for it in LEVELS if it != self.level]
        word = format_word(self.level, self.mask) ^ format_word(self.numbers.one(alike), self.mask)
        apart = [place for i, place in enumerate((self.first, self.second)[copy]) if word >> i & 1]
        wrong = self.numbers.some(apart, len(apart) - 3)
        more = self.numbers.some((self.second, self.first)[copy], self.numbers.below(7 - len(wrong)))
        return self.damaged(wrong + more, len(wrong) + len(more), 0)

    def six_of_the_format(self):
        return self.damaged(self.codewords_wrong() + self.numbers.some(self.first + self.second, 6), 6, self.bound)

    def format_not_known(self):
        """In both copies together k modules are not known and t others are wrong, with k + 2t = 13. As many codewords
        are wrong as can be mended."""
        wrong = self.numbers.below(7)
        places = self.numbers.some(self.first + self.second, 13 - wrong)
        inverted_places = self.codewords_wrong() + places[:wrong]
        square = unread(inverted(self.square, inverted_places), places[wrong:])
        return self.told(square, len(inverted_places) + 13 - 2 * wrong, 13 - wrong, self.bound)

    def one_more(self):
        """One more codeword of a block is wrong than can be mended. The model says what is wanted."""
        more = [0] * self.block_count
        more[self.numbers.below(self.block_count)] = 1
        square = inverted(self.square, self.codewords_wrong(*more) + self.numbers.some(self.first, 3))
        return square, reading(square, self.version)

    def nearer_to_another(self):
        """One more codeword of a block is wrong than can be mended, and as many other changes as can be mended make it
        another message. There is no such damage if some codewords are kept for detection, or if the number of error
        correction codewords is odd."""
        n = squares.correction_len(self.version, self.level)
        if 2 * self.bound != n:
            return None
        sent = squares.codewords_of(self.square, self.version, self.mask)
        data = bytearray(squares.data_of(self.version, self.level, sent))
        data[self.numbers.below(len(data))] ^= 1 + self.numbers.below(255)
        other = interleaved(self.version, self.level, data)
        apart = {i: a ^ b for i, (a, b) in enumerate(zip(sent, other)) if a != b}
        assert len(apart) == n + 1, "a byte of data changes all error correction codewords of its block"
        changed = min(apart)
        wrong = {i: apart[i] for i in [changed, *self.numbers.some(sorted(set(apart) - {changed}), self.bound)]}
        for block in squares.blocks(self.version, self.level):
            if changed not in block:
                wrong.update((i, 1 + self.numbers.below(255)) for i in self.numbers.some(block, self.bound))
        square = inverted(self.square, places_of(self.version, wrong) + self.numbers.some(self.first, 3))
        try:
            said = squares.parsed(bytes(data), self.version)
        except Unparsed:
            return square, "SEGMENTS"
        whole = square_of(self.version, self.level, self.mask, other)
        return square, {**self.wanted, **said.fields(), **damage_of(square, whole, self.version, self.level),
                        "wrong_format_modules": 3, "changed_most": self.bound}

    def not_known(self, more=0):
        """In each block some codewords have modules that are not known, and others are wrong, as many as can be mended.
        In the first block `more` codewords more have modules that are not known."""
        region, wrong, unknown, most = layout(self.version).region, {}, [], 0
        for k, block in enumerate(squares.blocks(self.version, self.level)):
            count = self.numbers.below(self.bound + 1)
            chosen = self.numbers.some(block, count + 2 * (self.bound - count) + (more if k == 0 else 0))
            wrong.update((i, 1 + self.numbers.below(255)) for i in chosen[:count])
            for i in chosen[count:]:
                unknown += self.numbers.some(region[8 * i:8 * i + 8], 1 + self.numbers.below(8))
            most = max(most, count)
        inverted_places = places_of(self.version, wrong)
        return self.told(unread(inverted(self.square, inverted_places), unknown), len(inverted_places) + len(unknown), 0, most)

    def one_more_not_known(self):
        """One more codeword of the first block has modules that are not known than can be mended. The model says what
        is wanted."""
        square, _ = self.not_known(1)
        return square, reading(square, self.version)

    def first_copy_not_known(self):
        """No module of the first copy of the format information is known, and in the second three are wrong or six not known."""
        if self.numbers.below(2):
            square = inverted(self.square, self.numbers.some(self.second, 3))
            return self.told(unread(square, self.first), 18, 18, 0)
        places = self.first + self.numbers.some(self.second, 6)
        return self.told(unread(self.square, places), 21, 21, 0)

    def outside_not_known(self):
        places = sum(self.outside.values(), [])
        return self.told(unread(self.square, places), len(places), 0, 0)

    def no_format(self):
        return inverted(self.square, to_word(self.square, self.version, 0, far_word(self.numbers))
                        + to_word(self.square, self.version, 1, far_word(self.numbers))), "FORMAT"

    def outside_alone(self, name):
        return self.damaged(self.outside[name], 0, 0) if self.outside[name] else None

    def one_outside(self):
        return self.damaged([self.numbers.one(sum(self.outside.values(), []))], 0, 0)

    def one_codeword(self):
        return self.damaged([self.numbers.one(layout(self.version).region)], 0, 1)

    def kinds(self):
        """Yields the name of each kind of damage, with a square and what is wanted of it."""
        yield "sound", (self.square, self.wanted)
        yield "damaged to the bound, and three modules of the first copy", self.to_the_bound()
        yield "damaged to the bound, the first copy and all patterns lost, three modules of the second", self.without_first_copy()
        yield "damaged to the bound, the first copy near to a wrong word, three modules of the second", self.by_a_wrong_first_copy()
        yield "the first copy near to the word of another level", self.toward_another_level(0)
        yield "the second copy near to the word of another level", self.toward_another_level(1)
        yield "damaged to the bound, and six modules of the format information", self.six_of_the_format()
        yield "damaged to the bound, and modules of the format information not known", self.format_not_known()
        yield "a corner torn off", self.torn()
        yield "one more codeword wrong", self.one_more()
        yield "one more codeword wrong, nearer to another message", self.nearer_to_another()
        yield "modules not known and codewords wrong to the bound", self.not_known()
        yield "modules of one more codeword not known", self.one_more_not_known()
        yield "the first copy of the format information not known", self.first_copy_not_known()
        yield "all modules outside the codewords and the format information not known", self.outside_not_known()
        yield "both copies near to no word", self.no_format()
        yield "one module of a codeword wrong", self.one_codeword()
        yield "one module outside the codewords wrong", self.one_outside()
        for name in self.outside:
            yield f"{name} wrong, and nothing else", self.outside_alone(name)
