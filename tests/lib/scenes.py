"""Pictures of symbols in grey, in kinds: as programs draw them, with texts around them, in noise, blurred, turned, tilted, in shadow, and so
on. They are the same on every machine. Each comes with what it shows. The symbols are those of the independent model (squares.py)."""
import math
from typing import NamedTuple

import squares
from damage import Numbers

WHITE, BLACK = 255, 0
SMALL = [1, 1, 2, 2, 3, 4, 5, 6, 7]  # versions as labels have them
# Letters of five columns, of seven pixels each. The lowest bit is that at the top.
FONT = {letter: bytes.fromhex(columns) for letter, columns in {
    "0": "3e5149453e", "1": "00427f4000", "2": "4261514946", "3": "2141454b31", "4": "1814127f10", "5": "2745454539", "6": "3c4a494930",
    "7": "0171090503", "8": "3649494936", "9": "064949291e", "A": "7e1111117e", "B": "7f49494936", "D": "7f4141221c", "E": "7f49494941",
    "H": "7f0808087f", "I": "00417f4100", "O": "3e4141413e", "Q": "3e4151215e", "X": "6314081463", "(": "001c224100", ")": "0041221c00",
    "-": "0808080808", ".": "0060600000", " ": "0000000000"}.items()}


class Shown(NamedTuple):
    """A symbol that a picture shows. Its corners are in pixels: that of the first module, and then clockwise around the symbol."""

    text: str
    corners: tuple
    side: int
    is_inverse: bool = False
    is_mirrored: bool = False

    def quarter_turns(self):
        """Returns by how many quarter turns the side from the first corner to the second one is turned clockwise, to the nearest one."""
        (x0, y0), (x1, y1) = self.corners[:2]
        return round(math.degrees(math.atan2(y1 - y0, x1 - x0)) / 90) % 4


class Scene(NamedTuple):
    kind: str
    pixels: bytearray
    width: int
    height: int
    symbols: list


class Symbol(NamedTuple):
    """A symbol of a text, with its modules."""

    text: str
    side: int
    modules: bytes


def symbol_of(numbers, versions=SMALL, level=None, digits=False):
    version, level = numbers.one(versions), level or numbers.one("LMQH")
    room = squares.most_characters(version, level, 4, 0)
    text = numbers.bytes(max(1, room - numbers.below(room // 2)), b"0123456789" if digits else b"0123456789abcdefghij -./").decode()
    codewords = squares.interleaved(version, level, squares.in_bytes(version, level, text.encode()))
    return Symbol(text, squares.side_of(version), bytes(squares.square_of(version, level, numbers.below(8), codewords)))


def plain(width, height, grey=WHITE):
    return bytearray([grey]) * (width * height)


def drawn(symbol, scale, margin, dark=BLACK, light=WHITE):
    """Returns the pixels of a symbol, and the width of the picture."""
    side, edge = symbol.side, [bytes([light]) * (scale * (symbol.side + 2 * margin))] * (scale * margin)
    greys, around = bytes([light, dark]) + bytes(254), bytes([light]) * (scale * margin)
    rows = []
    for at in range(0, side * side, side):
        row = bytearray(scale * side)
        for k in range(scale):
            row[k::scale] = symbol.modules[at:at + side].translate(greys)
        rows += [around + row + around] * scale
    return bytearray(b"".join([*edge, *rows, *edge])), scale * (side + 2 * margin)


def upright(left, top, size):
    return ((left, top), (left + size, top), (left + size, top + size), (left, top + size))


def paste(pixels, width, inner, size, left, top):
    """Copies a square picture to a place of another one."""
    for y in range(size):
        at = (top + y) * width + left
        pixels[at:at + size] = inner[y * size:(y + 1) * size]


def write(pixels, width, text, left, top, scale):
    """Writes a line of text, as far as it is inside."""
    for k, letter in enumerate(text):
        for column, bits in enumerate(FONT[letter]):
            x = left + (6 * k + column) * scale
            for row in range(7):
                if bits >> row & 1 and x + scale <= width:
                    for y in range(scale):
                        at = (top + row * scale + y) * width + x
                        pixels[at:at + scale] = bytes(scale)


def words(numbers, count):
    return "".join(numbers.one([*FONT]) for _ in range(count))


def page(numbers, width, height, scale):
    """Returns a page that is full of lines of text."""
    pixels = plain(width, height)
    for top in range(scale, height - 9 * scale, 10 * scale):
        write(pixels, width, words(numbers, width // (6 * scale)), scale, top, scale)
    return pixels


def squeezed(pixels, change):
    """Changes the brightness of each pixel, of which each stays a byte."""
    return bytearray(max(0, min(255, int(change(it)))) for it in pixels)


def noisy(numbers, pixels, amount):
    """Adds noise, of which about two thirds are at most `amount`."""
    noise = [amount * (sum(numbers.below(1000) for _ in range(4)) / 577.4 - 3.461) for _ in range(1024)]
    return bytearray(max(0, min(255, round(it + numbers.one(noise)))) for it in pixels)


def blurred(pixels, width, height, reach):
    """Returns the mean of each pixel and those around it, across and down."""
    def across(given, length):
        out = bytearray()
        for at in range(0, len(given), length):
            row, sums = given[at:at + length], [0]
            for it in row:
                sums.append(sums[-1] + it)
            for x in range(length):
                a, b = max(0, x - reach), min(length, x + reach + 1)
                out.append((sums[b] - sums[a]) // (b - a))
        return out

    def turned(given, wide, high):
        return b"".join(bytes(given[x::wide]) for x in range(wide))

    once = turned(across(pixels, width), width, height)
    return bytearray(turned(across(once, height), height, width))


def map_to(corners):
    """Returns the nine numbers that take the unit square to four corners, which are given clockwise (Heckbert, 1989)."""
    (x0, y0), (x1, y1), (x2, y2), (x3, y3) = corners
    dx1, dx2, dx3, dy1, dy2, dy3 = x1 - x2, x3 - x2, x0 - x1 + x2 - x3, y1 - y2, y3 - y2, y0 - y1 + y2 - y3
    whole = dx1 * dy2 - dx2 * dy1
    g, h = (dx3 * dy2 - dx2 * dy3) / whole, (dx1 * dy3 - dx3 * dy1) / whole
    return (x1 - x0 + g * x1, x3 - x0 + h * x3, x0, y1 - y0 + g * y1, y3 - y0 + h * y3, y0, g, h, 1.0)


def back(numbers):
    """Returns the numbers of the inverse map."""
    a, b, c, d, e, f, g, h, i = numbers
    return (e * i - f * h, c * h - b * i, b * f - c * e, f * g - d * i, a * i - c * g, c * d - a * f, d * h - e * g, b * g - a * h, a * e - b * d)


def seen(symbol, corners, width, height, ground=WHITE, light=WHITE, dark=BLACK, margin=4):
    """Returns what a camera sees of a symbol with its margin, whose corners are at four places: each pixel is the mean of four points."""
    size = symbol.side + 2 * margin
    table, _ = drawn(symbol, 1, margin, dark, light)
    # (the map is that of the symbol without its margin)
    a, b, c, d, e, f, g, h, i = back(map_to(corners))
    pixels = plain(width, height, ground)
    for y in range(height):
        for x in range(width):
            total = 0
            for sy, sx in ((0.25, 0.25), (0.25, 0.75), (0.75, 0.25), (0.75, 0.75)):
                u, v = x + sx, y + sy
                w = g * u + h * v + i
                column, row = math.floor((a * u + b * v + c) / w * symbol.side) + margin, math.floor((d * u + e * v + f) / w * symbol.side) + margin
                total += table[row * size + column] if 0 <= row < size and 0 <= column < size else ground
            pixels[y * width + x] = total // 4
    return pixels


def turned_corners(middle, size, angle):
    turn, half = math.radians(angle), size / 2
    return tuple((middle + x * half * math.cos(turn) - y * half * math.sin(turn), middle + x * half * math.sin(turn) + y * half * math.cos(turn))
                 for x, y in ((-1, -1), (1, -1), (1, 1), (-1, 1)))


def lit(pixels, width, dark):
    """Returns a picture that is lit from the right: its left edge has so large a share of the light."""
    return bytearray(int(it * (dark + (1 - dark) * (k % width) / width)) for k, it in enumerate(pixels))


def write_film(path, frames, width, height, rate):
    """Writes pictures as a film without colours in the format YUV4MPEG2, of so many pictures a second."""
    with open(path, "wb") as it:
        it.write(f"YUV4MPEG2 W{width} H{height} F{rate}:1\n".encode())
        for pixels in frames:
            # (brightness goes from 16 to 235)
            it.write(b"FRAME\n" + pixels.translate(bytes(16 + 219 * grey // 255 for grey in range(256))) + bytes([128]) * (width * height // 2))


# ---- the kinds: each returns pixels, a width, a height, and what is shown

def of_clean(numbers):
    symbol, scale, margin = symbol_of(numbers, [*SMALL, 9, 14, 25, 40]), 1 + numbers.below(8), numbers.below(6)
    pixels, width = drawn(symbol, scale, margin)
    return pixels, width, width, [Shown(symbol.text, upright(scale * margin, scale * margin, scale * symbol.side), symbol.side)]


def labelled(numbers, lines, size, scale=4, margin=4, **colours):
    """Returns a symbol with lines of text below it."""
    symbol = symbol_of(numbers)
    inner, width = drawn(symbol, scale, margin, **colours)
    height = width + lines * 9 * size + 8
    pixels = plain(width, height)
    paste(pixels, width, inner, width, 0, 0)
    for k in range(lines):
        write(pixels, width, "888 " + words(numbers, 40), 4, width + 9 * size * k, size)
    return symbol, pixels, width, height, [Shown(symbol.text, upright(scale * margin, scale * margin, scale * symbol.side), symbol.side)]


def of_captions(numbers):
    return labelled(numbers, 1 + numbers.below(3), 1 + numbers.below(3))[1:]


def of_page(numbers):
    pixels = page(numbers, 420, 420, 1 + numbers.below(3))
    symbol = symbol_of(numbers)
    scale = 3 + numbers.below(2)
    inner, size = drawn(symbol, scale, 4)
    left, top = numbers.below(420 - size), numbers.below(420 - size)
    paste(pixels, 420, inner, size, left, top)
    return pixels, 420, 420, [Shown(symbol.text, upright(left + 4 * scale, top + 4 * scale, scale * symbol.side), symbol.side)]


def of_text_alone(numbers):
    return page(numbers, 420, 420, 1 + numbers.below(3)), 420, 420, []


def of_noise_alone(numbers):
    return bytearray(numbers.one([0, 255]) for _ in range(250 * 250)), 250, 250, []


def of_noise(numbers):
    _, pixels, width, height, shown = labelled(numbers, 0, 1)
    return noisy(numbers, pixels, 15 + numbers.below(35)), width, height, shown


def of_blur(numbers):
    scale = 4 + numbers.below(3)
    _, pixels, width, height, shown = labelled(numbers, 1, 2, scale)
    return blurred(pixels, width, height, scale // 3), width, height, shown


def of_low_contrast(numbers):
    dark = 60 + numbers.below(100)
    _, pixels, width, height, shown = labelled(numbers, 1, 2)
    span = 20 + numbers.below(40)
    return squeezed(pixels, lambda it: dark + it * span / 255), width, height, shown


def of_wrong_modules(numbers):
    symbol = symbol_of(numbers, level=numbers.one("QH"))
    modules = bytearray(symbol.modules)
    for place in numbers.some(range(len(modules)), len(modules) // 100):
        modules[place] ^= 1
    pixels, width = drawn(symbol._replace(modules=bytes(modules)), 5, 4)
    return pixels, width, width, [Shown(symbol.text, upright(20, 20, 5 * symbol.side), symbol.side)]


def of_wrong_finder(numbers):
    """One finder pattern has 5 or 6 wrong modules: the one in its middle, and others near it."""
    symbol = symbol_of(numbers)
    side, modules = symbol.side, bytearray(symbol.modules)
    column, row = numbers.one([(0, 0), (side - 7, 0), (0, side - 7)])
    others = [(x, y) for y in range(1, 6) for x in range(1, 6) if (x, y) != (3, 3)]
    for x, y in [(3, 3), *numbers.some(others, 4 + numbers.below(2))]:
        modules[(row + y) * side + column + x] ^= 1
    scale = 4 + numbers.below(3)
    width = round(1.45 * scale * (side + 8)) + 6
    corners = turned_corners(width / 2, scale * side, numbers.one([0, 90, 180, 270, numbers.below(360)]))
    return seen(symbol._replace(modules=bytes(modules)), corners, width, width), width, width, [Shown(symbol.text, corners, side)]


def of_turned(numbers):
    symbol, scale = symbol_of(numbers), 4 + numbers.below(3)
    size = scale * symbol.side
    width = round(1.45 * (size + 8 * scale)) + 6
    corners = turned_corners(width / 2, size, 1 + numbers.below(358))
    return seen(symbol, corners, width, width), width, width, [Shown(symbol.text, corners, symbol.side)]


def of_quarter_turns(numbers):
    symbol = symbol_of(numbers)
    pixels, width = drawn(symbol, 4, 4)
    corners = list(upright(16, 16, 4 * symbol.side))
    for _ in range(1 + numbers.below(3)):
        pixels = bytearray(b"".join(bytes(pixels[x::width])[::-1] for x in range(width)))
        corners = [(width - y, x) for x, y in corners]
    return pixels, width, width, [Shown(symbol.text, tuple(corners), symbol.side)]


def of_perspective(numbers):
    symbol, scale = symbol_of(numbers, [1, 2, 2, 3, 4]), 5 + numbers.below(2)
    size, pad = scale * symbol.side, 6 * scale
    corners = tuple((pad + x * size + (numbers.below(2001) - 1000) / 1000 * 0.08 * size, pad + y * size + (numbers.below(2001) - 1000) / 1000 * 0.08 * size)
                    for x, y in ((0, 0), (1, 0), (1, 1), (0, 1)))
    width = size + 2 * pad
    return seen(symbol, corners, width, width, ground=numbers.one([200, 230, 255])), width, width, [Shown(symbol.text, corners, symbol.side)]


def of_shadow(numbers):
    _, pixels, width, height, shown = labelled(numbers, 1, 2, 5)
    at, depth, is_hard = width * (30 + numbers.below(40)) // 100, 0.3 + numbers.below(30) / 100, numbers.below(2) == 0
    share = [depth if x < at else 1.0 for x in range(width)] if is_hard else [depth + (1 - depth) * x / width for x in range(width)]
    return bytearray(int(it * share[k % width]) for k, it in enumerate(pixels)), width, height, shown


def of_mirrored(numbers):
    symbol, _, _, _, (shown,) = labelled(numbers, 0, 1)
    modules = bytes(symbol.modules[column * symbol.side + row] for row in range(symbol.side) for column in range(symbol.side))
    pixels, width = drawn(symbol._replace(modules=modules), 4, 4)
    if numbers.below(2):  # with a caption, so that the picture is no drawing of one symbol
        pixels += plain(width, 24)
        write(pixels, width, words(numbers, 12), 4, width, 2)
    return pixels, width, len(pixels) // width, [shown._replace(is_mirrored=True)]


def of_several(numbers):
    rows, columns, shown = 1 + numbers.below(3), 2 + numbers.below(3), []
    made = [(symbol_of(numbers, [1, 2, 3]), 3 + numbers.below(3)) for _ in range(rows * columns)]
    place = 8 + max(scale * (symbol.side + 8) for symbol, scale in made)
    pixels = plain(place * columns, place * rows)
    for k, (symbol, scale) in enumerate(made):
        inner, size = drawn(symbol, scale, 4)
        left, top = place * (k % columns) + numbers.below(place - size), place * (k // columns)
        paste(pixels, place * columns, inner, size, left, top)
        shown.append(Shown(symbol.text, upright(left + 4 * scale, top + 4 * scale, scale * symbol.side), symbol.side))
    return pixels, place * columns, place * rows, shown


def of_light_on_dark(numbers):
    dark, light = 10 + numbers.below(60), 200 + numbers.below(56)
    _, pixels, width, height, (shown,) = labelled(numbers, numbers.below(2), 2, dark=light, light=dark)
    return pixels, width, height, [shown._replace(is_inverse=True)]


def of_logo(numbers):
    symbol = symbol_of(numbers, [4, 5, 6, 7], "H")
    pixels, width = drawn(symbol, 4, 4)
    size = symbol.side // 5 * 4
    first = (width - size) // 2
    logo = bytearray(numbers.one([70, 110, 190, 240]) if (x // 6 + y // 6) % 3 else 235 for y in range(size) for x in range(size))
    paste(pixels, width, logo, size, first, first)
    return pixels, width, width, [Shown(symbol.text, upright(16, 16, 4 * symbol.side), symbol.side)]


def of_scaled(numbers):
    symbol, scale = symbol_of(numbers), (22 + numbers.below(25)) / 10
    size, pad = scale * symbol.side, 5 * scale
    width, first = math.ceil(size + 2 * pad), pad + numbers.below(100) / 100
    corners = upright(first, first, size)
    return seen(symbol, corners, width, width), width, width, [Shown(symbol.text, corners, symbol.side)]


def of_camera(numbers):
    """A label that is turned and seen at an angle, lit from one side, out of focus, and with noise."""
    symbol = symbol_of(numbers, [1, 2, 2, 3], numbers.one("MQH"))
    size = 6 * symbol.side
    width = round(1.6 * (size + 36))
    corners = turned_corners(width / 2, size, numbers.below(360))
    corners = tuple((x * (0.85 + 0.15 * y / width) + width * 0.05, y) for x, y in corners)
    pixels = blurred(seen(symbol, corners, width, width, ground=190, light=230, dark=40), width, width, 1)
    return noisy(numbers, lit(pixels, width, 0.55), 6), width, width, [Shown(symbol.text, corners, symbol.side)]


class Camera(NamedTuple):
    """How a camera sees a label. Its paper lies on a cylinder, of which it takes an angle in radians, so that its left and right edges are
    straight. They are seen as the sides of four corners, and then a lens moves each place from the middle or to it."""

    size: int  # pixels of the photograph, which is a square
    curl: float
    corners: tuple
    lens: float

    def place(self, u, v):
        """Returns where a place of the label is seen. On the paper u and v go from 0 to 1."""
        a, b, c, d, e, f, g, h, i = map_to(self.corners)
        u = 0.5 + math.sin((u - 0.5) * self.curl) / (2 * math.sin(self.curl / 2))
        w, half = g * u + h * v + i, self.size / 2
        wanted = x, y = (a * u + b * v + c) / w / half - 1, (d * u + e * v + f) / w / half - 1
        for _ in range(30):
            bend = 1 + self.lens * (x * x + y * y)
            x, y = wanted[0] / bend, wanted[1] / bend
        return half * (1 + x), half * (1 + y)

    def sees(self, label, width, height, ground, lamp):
        """Returns a photograph. The lamp stands at an angle, in radians, from the middle of the paper."""
        a, b, c, d, e, f, g, h, i = back(map_to(self.corners))
        pixels, half, edge = bytearray(), self.size / 2, math.sin(self.curl / 2)
        for y in range(self.size):
            for x in range(self.size):
                total = 0
                for more in (0.25, 0.75):
                    p, q = (x + more) / half - 1, (y + more) / half - 1
                    bend = half * (1 + self.lens * (p * p + q * q))
                    p, q = half + p * bend, half + q * bend
                    w = g * p + h * q + i
                    u, v = (a * p + b * q + c) / w, (d * p + e * q + f) / w
                    if 0 <= u < 1 and 0 <= v < 1:
                        angle = math.asin((2 * u - 1) * edge)
                        total += (0.4 + 0.6 * math.cos(angle - lamp)) * label[int(v * height) * width + int((0.5 + angle / self.curl) * width)]
                    else:
                        total += ground
                pixels.append(int(total / 2))
        return pixels


def of_photographs(numbers):
    """A printed label on curled paper, seen at an angle through a lens, lit from one side, a little out of focus, and with noise."""
    symbol, label, wide, high, (shown,) = labelled(numbers, numbers.below(3), 1 + numbers.below(2), dark=20 + numbers.below(40), light=225)
    size, turn = 340, math.radians(numbers.below(360))
    # how long the sides of the label are in the photograph, along which its corners are turned and moved
    scale = (0.52 + numbers.below(10) / 100) * size / max(wide, high)
    corners = []
    for x, y in ((-1, -1), (1, -1), (1, 1), (-1, 1)):
        x, y = (it * scale / 2 + (numbers.below(201) - 100) / 100 * 0.05 * size for it in (x * wide, y * high))
        corners.append((size / 2 + x * math.cos(turn) - y * math.sin(turn), size / 2 + x * math.sin(turn) + y * math.cos(turn)))
    camera = Camera(size, 0.2 + numbers.below(80) / 100, tuple(corners), (numbers.below(201) - 100) / 1000)
    pixels = camera.sees(label, wide, high, 60 + numbers.below(80), (numbers.below(201) - 100) / 100)
    pixels = noisy(numbers, lit(blurred(pixels, size, size, 1), size, 0.5 + numbers.below(50) / 100), 2 + numbers.below(5))
    return pixels, size, size, [shown._replace(corners=tuple(camera.place(x / wide, y / high) for x, y in shown.corners))]


def grid(symbols, columns, scale, margin):
    """Returns a picture of small symbols that are close to each other, all of one side, row by row."""
    rows, shown = bytearray(), []
    for k, symbol in enumerate(symbols):
        inner, size = drawn(symbol, scale, margin)
        if k % columns == 0:
            rows += plain(columns * size, size)
        paste(rows, columns * size, inner, size, k % columns * size, k // columns * size)
        first = (k % columns * size + scale * margin, k // columns * size + scale * margin)
        shown.append(Shown(symbol.text, upright(*first, scale * symbol.side), symbol.side))
    return Scene("grid", rows, columns * size, len(symbols) // columns * size, shown)


# How many pictures there are of each kind.
KINDS = {
    "clean": (of_clean, 12), "captions": (of_captions, 10), "a page of text": (of_page, 6), "text alone": (of_text_alone, 3),
    "noise alone": (of_noise_alone, 2), "noise": (of_noise, 6), "blur": (of_blur, 6), "low contrast": (of_low_contrast, 5),
    "wrong modules": (of_wrong_modules, 8), "wrong modules in a finder pattern": (of_wrong_finder, 12), "turned": (of_turned, 10),
    "quarter turns": (of_quarter_turns, 4), "perspective": (of_perspective, 8), "shadow": (of_shadow, 6), "mirrored": (of_mirrored, 4),
    "several": (of_several, 4), "light on dark": (of_light_on_dark, 5), "logo": (of_logo, 6), "scaled": (of_scaled, 6),
    "as a camera sees it": (of_camera, 6), "photographs": (of_photographs, 12),
}


def scene_of(kind, k):
    """Returns a picture of a kind. There is one for each number."""
    make, _ = KINDS[kind]
    return Scene(kind, *make(Numbers("scenes", kind, k)))


def scenes(kinds=KINDS):
    """Yields the pictures of some kinds."""
    for kind in kinds:
        _, count = KINDS[kind]
        yield from (scene_of(kind, k) for k in range(count))
