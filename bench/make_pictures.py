"""Makes pictures of symbols in kinds, in grey, for bench/pictures: make_pictures.py FOLDER SEED SHARE [WORD]. With SHARE 1 these are
1,150. With a word only the kinds whose names have it are written.

It takes numpy, Pillow, segno, qrencode, zint, the fonts DejaVu, and the package for Python of this repository (by PYTHONPATH). It writes
PGM files, and for each of them a line of FOLDER/list.tsv: its name, its kind, and the texts of its symbols as JSON."""
import io
import json
import math
import os
import random
import string
import subprocess
import sys

import numpy as np
import segno
from PIL import Image, ImageDraw, ImageFilter, ImageFont

import qrproved

out, seed, share, word = sys.argv[1], int(sys.argv[2]), float(sys.argv[3]), "".join(sys.argv[4:])
rnd = random.Random(seed)
nrnd = np.random.RandomState(seed % 2**32)
os.makedirs(out, exist_ok=True)
FONTS = [f"/usr/share/fonts/truetype/dejavu/DejaVu{it}.ttf" for it in ("Sans", "Sans-Bold", "SansMono", "SansMono-Bold", "Serif", "Serif-Bold")]
lines = []


def text(n):
    return "".join(rnd.choice(string.ascii_letters + string.digits + " -./:") for _ in range(n)).strip(" -") or "A"


def room_of(version):
    """Returns about how many bytes fit a version, of any level."""
    size = 17 + 4 * version
    align = 0 if version == 1 else (version // 7 + 2) ** 2 - 3
    return int((size * size - 3 * 64 - 2 * (size - 16) - 31 - 25 * align - (36 if version >= 7 else 0)) / 8 * 0.6)


def text_of_version(version):
    return text(max(4, int(room_of(version) * rnd.uniform(0.5, 0.95))))


def matrix(content, maker="segno", version=None, level=None):
    """Returns the modules of a text, 1 for dark, as a program makes them."""
    level = level or rnd.choice("LMQH")
    if len(content) > {"L": 2900, "M": 2300, "Q": 1650, "H": 1250}[level]:
        level = "L"
    if maker == "segno":
        rows = segno.make(content, error=level, micro=False, boost_error=False, version=version).matrix
        return np.array([list(it) for it in rows], np.uint8)
    if maker == "ours":
        symbol = qrproved.encode(content, level=level)
        return np.frombuffer(bytes(symbol.modules), np.uint8).reshape(symbol.side, symbol.side)
    if maker == "qrencode":
        words = ["/usr/bin/qrencode", "-8", "-l", level, "-s", "1", "-m", "0", "-o", "-", content]
        data = subprocess.run(words, capture_output=True, check=True).stdout
    else:
        name = os.path.join(out, "zint.png")
        words = ["zint", "-b", "QRCODE", "--secure=" + str("LMQH".index(level) + 1), "--scale=0.5", "-o", name, "-d", content]
        subprocess.run(words, capture_output=True, check=True)
        with open(name, "rb") as it:
            data = it.read()
        os.remove(name)
    return (np.array(Image.open(io.BytesIO(data)).convert("RGBA").convert("L")) < 128).astype(np.uint8)


def draw(modules, scale, margin=4, dark=0, light=255):
    image = np.full((len(modules) + 2 * margin,) * 2, light, np.uint8)
    image[margin:margin + len(modules), margin:margin + len(modules)][modules == 1] = dark
    return Image.fromarray(np.kron(image, np.ones((scale, scale), np.uint8)).astype(np.uint8), "L")


def save(kind, image, texts):
    if word in kind:
        name = f"{len(lines):04d}.pgm"
        image.convert("L").save(os.path.join(out, name))
        lines.append((name, kind, json.dumps(texts)))


def many(n):
    return range(max(1, round(n * share)))


def usual_version():
    return rnd.choice([1, 1, 2, 3, 4, 5, 6, 7, 8, 10, 14, 20])


def usual(scale=None, **colours):
    """Returns a symbol as labels have it, its text and its scale."""
    content = text_of_version(usual_version())
    scale = scale or rnd.choice([3, 4, 5, 6, 8])
    return draw(matrix(content), scale, **colours), content, scale


def on_ground(image, pad, ground=255):
    whole = Image.new("L", (image.width + 2 * pad, image.height + 2 * pad), ground)
    whole.paste(image, (pad, pad))
    return whole


def words_of(n):
    return " ".join("".join(rnd.choice("aeiounrstldmbgkpABCD0123456789OQ8@") for _ in range(rnd.randint(2, 9))) for _ in range(n))


def page(width, height, size, font):
    image = Image.new("L", (width, height), 255)
    pen, face, y = ImageDraw.Draw(image), ImageFont.truetype(font, size), size
    while y < height - 2 * size:
        pen.text((size, y), words_of(width // (size * 4)), fill=0, font=face)
        y += int(size * 1.4)
    return image


def perspective(image, corners, ground=255, size=None):
    """Moves the four corners of an image: top left, top right, bottom right, bottom left."""
    w, h = image.size
    rows, right = [], []
    for (x, y), (u, v) in zip(corners, ((0, 0), (w, 0), (w, h), (0, h))):
        rows += [[x, y, 1, 0, 0, 0, -u * x, -u * y], [0, 0, 0, x, y, 1, -v * x, -v * y]]
        right += [u, v]
    data = np.linalg.solve(np.array(rows, float), np.array(right, float))
    big = size or (int(max(x for x, _ in corners)) + 1, int(max(y for _, y in corners)) + 1)
    mask = Image.new("L", (w, h), 255).transform(big, Image.PERSPECTIVE, data, Image.BILINEAR)
    moved = image.transform(big, Image.PERSPECTIVE, data, Image.BICUBIC)
    return Image.composite(moved, Image.new("L", big, ground), mask)


def shaken(image, amount):
    """Returns an image in a perspective that moves each corner by at most this share of the side."""
    w, h = image.size
    pad = int(amount * max(w, h)) + 4
    corners = [(pad + x * w + rnd.uniform(-amount, amount) * w, pad + y * h + rnd.uniform(-amount, amount) * h)
               for x, y in ((0, 0), (1, 0), (1, 1), (0, 1))]
    return perspective(image, corners, size=(w + 2 * pad, h + 2 * pad))


def tilted(image, angle, turn):
    """Returns what a camera sees of an image that is tilted away from it by an angle, after a turn in its plane."""
    w, h = image.size
    a, t, far = math.radians(angle), math.radians(turn), 2.2 * max(w, h)
    points = []
    for x, y in ((-w / 2, -h / 2), (w / 2, -h / 2), (w / 2, h / 2), (-w / 2, h / 2)):
        x, y = x * math.cos(t) - y * math.sin(t), x * math.sin(t) + y * math.cos(t)
        z = far + x * math.sin(a)
        points.append((x * math.cos(a) * far / z, y * far / z))
    left, top = min(x for x, _ in points), min(y for _, y in points)
    return perspective(image, [(x - left + 6, y - top + 6) for x, y in points])


def noisy(image, sigma):
    a = np.asarray(image, float)
    return Image.fromarray(np.clip(a + nrnd.normal(0, sigma, a.shape), 0, 255).astype(np.uint8), "L")


def shadow(image, hard):
    w, h = image.size
    y, x = np.mgrid[0:h, 0:w]
    t = rnd.uniform(0, 2 * math.pi)
    along = (x / w - 0.5) * math.cos(t) + (y / h - 0.5) * math.sin(t)
    low = rnd.uniform(0.15, 0.4)
    factor = np.where(along > rnd.uniform(-0.2, 0.2), low, 1.0) if hard else np.clip(0.5 + along * 1.2, low * 0.7, 1.0)
    return Image.fromarray((np.asarray(image, float) * factor).astype(np.uint8), "L")


def jpeg(image, quality):
    file = io.BytesIO()
    image.save(file, "JPEG", quality=quality)
    return Image.open(io.BytesIO(file.getvalue())).convert("L")


# The kinds. Each symbol is one of the next ones of the seed, so that their order is kept.
for k in many(160):
    version, scale = k % 40 + 1, k % 12 + 1
    maker = ("segno", "qrencode", "zint", "ours")[(k // 12 + k) % 4]
    if (17 + 4 * version + 8) * scale > 1300:
        scale = max(1, 1300 // (25 + 4 * version))
    content = text_of_version(version)
    save("clean, versions 1 to 40, scales 1 to 12, four makers", draw(matrix(content, maker), scale, margin=4), [content])
for k in many(40):
    image, content, _ = usual(scale=rnd.randint(2, 6), margin=rnd.choice([0, 1, 2]))
    save("margin of 0 to 2 modules", image, [content])
for k in many(90):
    image, content, scale = usual()
    size, font = rnd.randint(8, 28), rnd.choice(FONTS)
    face = ImageFont.truetype(font, size)
    count = rnd.choice([1, 1, 1, 2, 4, 8])
    says = [rnd.choice(["888", "(01)04012345678901(10)ABC123", "08808 8008", words_of(3), text(20)]) for _ in range(count)]
    whole = Image.new("L", (max(image.width, 300), image.height + int(count * size * 1.4) + 8), 255)
    whole.paste(image, (0, 0))
    for j, it in enumerate(says):
        ImageDraw.Draw(whole).text((10, image.height + int(j * size * 1.4)), it, fill=0, font=face)
    save("captions in six fonts, 8 to 28 pixels", whole, [content])
for k in many(20):
    save("page of text, no symbol", page(rnd.choice([300, 620, 1240]), rnd.choice([200, 877, 1754]), rnd.randint(9, 30), rnd.choice(FONTS)), [])
for k in many(20):
    whole = page(1000, 1200, rnd.randint(9, 30), rnd.choice(FONTS))
    image, content, _ = usual(scale=rnd.choice([2, 3, 4]))
    whole.paste(image, (rnd.randint(0, max(0, 1000 - image.width)), rnd.randint(0, max(0, 1200 - image.height))))
    save("page of text with a symbol", whole, [content])
for k in many(12):
    side, grain = rnd.choice([250, 500, 1000]), rnd.choice([1, 1, 2, 3])
    grey = nrnd.randint(0, 2, (side // grain, side // grain)) * 255 if k % 2 else nrnd.randint(0, 256, (side // grain, side // grain))
    save("noise, no symbol", Image.fromarray(np.kron(grey, np.ones((grain, grain))).astype(np.uint8), "L"), [])
for k in many(20):
    image, content, scale = usual()
    side = max(image.width, image.height) + 200
    whole = Image.fromarray(nrnd.randint(0, 256, (side, side)).astype(np.uint8), "L")
    whole.paste(image, (rnd.randint(0, 200), rnd.randint(0, 200)))
    save("on a ground of noise", whole, [content])
for sigma in (30, 60):
    for k in many(40):
        image, content, _ = usual()
        save(f"Gaussian noise of {sigma}", noisy(image, sigma), [content])
for k in many(40):
    image, content, _ = usual()
    save("JPEG of quality 10", jpeg(image, 10), [content])
for k in many(40):
    image, content, scale = usual()
    save("blur of 0.3 to 0.75 modules", image.filter(ImageFilter.GaussianBlur(scale * rnd.uniform(0.3, 0.75))), [content])
for k in many(60):
    image, content, scale = usual(scale=rnd.choice([2, 3, 4]))
    f = rnd.uniform(0.7, 1.5)
    how = rnd.choice([Image.BILINEAR, Image.BICUBIC, Image.NEAREST, Image.LANCZOS])
    save("scaled by 0.7 to 1.5, four methods", image.resize((round(image.width * f), round(image.height * f)), how), [content])
for k in many(40):
    low = rnd.randint(20, 200)
    image, content, _ = usual(dark=low, light=low + rnd.randint(14, 50))
    save("low contrast, 14 to 50 of 255", noisy(image, 1.5), [content])
for percent in (1, 3):
    for k in many(30):
        content = text_of_version(usual_version())
        modules = matrix(content).copy()
        modules ^= (nrnd.random_sample(modules.shape) < percent / 100).astype(np.uint8)
        save(f"{percent} % of the modules wrong", draw(modules, rnd.choice([3, 4, 5])), [content])
for k in many(30):
    image, content, _ = usual()
    a = np.asarray(image).copy()
    hit = nrnd.random_sample(a.shape) < 0.05
    a[hit] = nrnd.randint(0, 2, int(hit.sum())) * 255
    save("5 % of the pixels black or white", Image.fromarray(a, "L"), [content])
for k in many(96):
    angle = (0.5, 1, 2, 5, 10, 20, 30, 45)[k % 8] * rnd.choice([1, -1])
    image, content, _ = usual()
    save("turned by 0.5 to 45 degrees", on_ground(image, 20).rotate(angle + rnd.choice([0, 0, 90, 180]), Image.BICUBIC, True, fillcolor=255), [content])
for k in many(24):
    image, content, _ = usual()
    save("quarter turns", image.transpose((Image.ROTATE_90, Image.ROTATE_180, Image.ROTATE_270)[k % 3]), [content])
for k in many(50):
    image, content, _ = usual()
    save("perspective, corners moved by 3 to 12 %", shaken(image, rnd.uniform(0.03, 0.12)), [content])
for k in many(40):
    image, content, _ = usual(scale=rnd.choice([5, 6, 8]))
    save("tilted by 20 to 55 degrees", tilted(image, rnd.uniform(20, 55), rnd.uniform(0, 360)), [content])
for k in many(50):
    image, content, _ = usual()
    save("shadow, soft and hard", shadow(image, k % 2), [content])
for k in many(24):
    image, content, _ = usual()
    image = image.transpose(Image.FLIP_LEFT_RIGHT)
    save("mirrored", image.rotate(rnd.choice([0, 90, 7]), Image.BICUBIC, True, fillcolor=255), [content])
for k in many(30):
    count = rnd.choice([2, 3, 4, 6, 9, 12])
    parts = [usual(scale=rnd.choice([3, 4])) for _ in range(count)]
    cell = max(it[0].width for it in parts) + rnd.randint(0, 10)
    across = math.ceil(math.sqrt(count))
    whole = Image.new("L", (across * cell, math.ceil(count / across) * cell), 255)
    for j, (image, _, _) in enumerate(parts):
        whole.paste(image, (j % across * cell, j // across * cell))
    save("2 to 12 symbols", whole, [it[1] for it in parts])
for k in many(40):
    content = text_of_version(rnd.choice([2, 3, 4, 5, 6, 7, 8, 10]))
    image = draw(matrix(content, level="H"), 6)
    side = (image.width - 48) * rnd.uniform(0.12, 0.24)
    box = [image.width / 2 - side / 2, image.height / 2 - side / 2, image.width / 2 + side / 2, image.height / 2 + side / 2]
    pen = ImageDraw.Draw(image)
    if k % 3 == 0:
        pen.rectangle(box, fill=rnd.choice([0, 60, 90, 128, 160, 200, 255]))
    elif k % 3 == 1:
        pen.ellipse(box, fill=rnd.choice([54, 18, 182, 76, 150, 226]))
    else:
        pen.rectangle(box, fill=255)
        pen.text((box[0] + 2, box[1]), "8@", fill=100, font=ImageFont.truetype(FONTS[1], max(6, int(side * 0.6))))
    save("logo in the middle", image, [content])
for k in many(24):
    image, content, _ = usual(dark=255, light=0)
    save("light on dark", on_ground(image, 10, rnd.choice([0, 255])), [content])
for k in many(60):
    image, content, scale = usual(scale=rnd.choice([4, 5, 6, 8]))
    image = tilted(on_ground(image, 20), rnd.uniform(0, 40), rnd.uniform(0, 360))
    image = shadow(image, False).filter(ImageFilter.GaussianBlur(rnd.uniform(0.5, 1.5)))
    save("as a camera sees it: tilt, uneven light, blur, noise, JPEG", jpeg(noisy(image, rnd.uniform(3, 12)), 60), [content])

with open(os.path.join(out, "list.tsv"), "w", encoding="utf-8") as file:
    file.writelines("\t".join(it) + "\n" for it in lines)
