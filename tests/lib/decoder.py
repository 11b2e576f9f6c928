"""Error correction of one block (ISO/IEC 18004:2015, 7.5 and Annex A): the field of 256 elements, the error correction
codewords of a block, and a decoder by the algorithm of Berlekamp and Massey, Chien's search and Forney's formula.
Codewords may be marked as not read.

Nothing here is taken from the crates: neither code nor tables. tests/mended checks this file before it uses it."""
import functools

REDUCED_BY = 0x11D  # x^8 + x^4 + x^3 + x^2 + 1


def product(a, b):
    """Returns the product of two elements, bit by bit."""
    result = 0
    while b:
        result ^= a * (b & 1)
        b >>= 1
        a = a << 1 ^ REDUCED_BY * (a >> 7)
    return result


# The powers of 2, and TIMES[a][b], the product of a and b.
POWERS = [1]
while len(POWERS) < 255:
    POWERS.append(product(POWERS[-1], 2))
LOGS = {power: exponent for exponent, power in enumerate(POWERS)}
TIMES = [bytes(POWERS[(LOGS[a] + LOGS[b]) % 255] if a and b else 0 for b in range(256)) for a in range(256)]


def power(exponent):
    return POWERS[exponent % 255]


def inverse(a):
    return power(-LOGS[a])


# Polynomials here have the coefficient of the lowest power first; blocks and generators have that of the highest first.

def multiplied(p, q):
    """Returns the product of two polynomials, in either order of coefficients."""
    result = [0] * (len(p) + len(q) - 1)
    for i, a in enumerate(p):
        for j, b in enumerate(q):
            result[i + j] ^= TIMES[a][b]
    return result


def value(p, x):
    """Returns the value of a polynomial at x."""
    times, result = TIMES[x], 0
    for coefficient in reversed(p):
        result = times[result] ^ coefficient
    return result


@functools.lru_cache(None)
def generator(n):
    """Returns the product of x - 2^i for i from 0 to n - 1, the highest power first."""
    return functools.reduce(multiplied, ([1, power(i)] for i in range(n)))


@functools.lru_cache(None)
def multiples(n):
    """Returns the product of each element with the generator without its highest power. Each product is one number."""
    return [int.from_bytes(bytes(generator(n)[1:]).translate(TIMES[a]), "big") for a in range(256)]


def correction(data, n):
    """Returns the n error correction codewords of a block's data codewords."""
    rows, remainder, above = multiples(n), 0, 8 * n
    for codeword in data:
        remainder = remainder << 8 ^ codeword << above
        factor = remainder >> above
        remainder ^= factor << above ^ rows[factor]
    return remainder.to_bytes(n, "big")


def syndromes(block, n):
    """Returns the values of a block's polynomial at 2^0 to 2^(n - 1). All are 0 exactly if the block is one of the
    code."""
    result = []
    for i in range(n):
        times, at = TIMES[POWERS[i]], 0
        for codeword in block:
            at = times[at] ^ codeword
        result.append(at)
    return result


def locator(found, unread):
    """Returns the polynomial of least degree whose roots are the inverses of the places of errors, with its degree: the
    shortest recurrence of the syndromes that has the given places, by Berlekamp and Massey. A place is a power of 2."""
    current = functools.reduce(multiplied, ([1, place] for place in unread), [1])
    degree, before, divisor, shift = len(unread), current, 1, 1
    for k in range(len(unread), len(found)):
        wrong = 0
        for j in range(min(len(current), k + 1)):
            wrong ^= TIMES[current[j]][found[k - j]]
        if not wrong:
            shift += 1
            continue
        factor = TIMES[TIMES[wrong][inverse(divisor)]]
        longer = current + [0] * (len(before) + shift - len(current))
        for j, coefficient in enumerate(before):
            longer[j + shift] ^= factor[coefficient]
        if 2 * degree <= k + len(unread):
            degree, before, divisor, shift = k + 1 + len(unread) - degree, current, wrong, 0
        current, shift = longer, shift + 1
    while current[-1] == 0:
        current.pop()
    return current, degree


def mended(block, n, spent, unread=()):
    """Returns the block of the code that differs from `block` only in the places `unread` and in few other places, or
    None. Twice the number of the other places, plus the number of unread places, is at most `spent`, so there is at
    most one such block. `spent` is at most n, the number of error correction codewords."""
    found = syndromes(block, n)
    if len(unread) > spent:
        return None
    if not any(found):
        return bytes(block)
    places, degree = locator(found, [power(len(block) - 1 - at) for at in unread])
    if len(places) - 1 != degree or 2 * degree - len(unread) > spent:
        return None
    roots = [at for at in range(len(block)) if value(places, power(at + 1 - len(block))) == 0]  # Chien
    if len(roots) != degree:
        return None
    values = multiplied(found, places)[:degree]  # Forney
    slope = [coefficient if j % 2 == 0 else 0 for j, coefficient in enumerate(places[1:])]
    result = bytearray(block)
    for at in roots:
        place = power(len(block) - 1 - at)
        over = value(slope, inverse(place))
        if over == 0:
            return None
        result[at] ^= TIMES[place][TIMES[value(values, inverse(place))][inverse(over)]]
    others = sum(a != b for at, (a, b) in enumerate(zip(block, result)) if at not in unread)
    return bytes(result) if not any(syndromes(result, n)) and len(unread) + 2 * others <= spent else None
