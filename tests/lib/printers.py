"""What printers print: interpreters of ZPL, TSPL and ESC/POS as far as images need them, by the manuals of Zebra (ZPL II Programming
Guide: ^FO, ^GF), TSC (TSPL/TSPL2 Programming Manual: SIZE, GAP, CLS, BITMAP, PRINT) and Epson (ESC/POS commands: ESC @, LF, GS v 0). They
know nothing of symbols, nor of the code that writes them. What they do not know, and what a manual forbids, is a ValueError.

A line of a picture is bytes, in which the left pixel is the highest bit, and 1 is black."""
import re
from typing import NamedTuple

PLACE_MAX = 32000  # dots, of ^FO


class Graphic(NamedTuple):
    """A picture at a place of a label, in dots from its upper left corner."""

    x: int
    y: int
    lines: list


def number(text, least, most, what):
    if not re.fullmatch(r"[0-9]+", text) or not least <= int(text) <= most:
        raise ValueError(f"{what} is {text!r}")
    return int(text)


# ---- ZPL

COMMAND = re.compile(r"\^([A-Z]{2})([^\^~]*)")
DIGITS = "0123456789ABCDEF"
# A letter before a digit says how often it comes: G to Y 1 to 19 times, g to z 20 to 400 times. Several letters are added.
TIMES = {**{chr(ord("F") + k): k for k in range(1, 20)}, **{chr(ord("f") + k): 20 * k for k in range(1, 21)}}


def unpacked(data, length):
    """Yields the lines of a graphic in hexadecimal digits, which may be packed, of so many bytes a line."""
    line, times, before = "", 0, None
    for sign in data:
        if sign in TIMES:
            times += TIMES[sign]
            continue
        if sign in DIGITS:
            line, times = line + sign * max(times, 1), 0
        elif times:
            raise ValueError(f"a count before {sign!r}")
        elif sign in ",!":
            line = line.ljust(2 * length, "0" if sign == "," else "F")
        elif sign == ":" and not line and before is not None:
            line = before
        else:
            raise ValueError(f"{sign!r} in a graphic")
        if len(line) > 2 * length:
            raise ValueError("digits past the end of a line")
        if len(line) == 2 * length:
            yield bytes.fromhex(line)
            line, before = "", line
    if line or times:
        raise ValueError("a graphic that ends within a line")


def graphic_of(parameters, place):
    """Returns the picture of the parameters of ^GF: the kind, the bytes that are sent, those of the graphic and of a line, and the data."""
    kind, sent, total, length, data = parameters.split(",", 4)
    total, length = number(total, 1, 10**9, "the bytes of a graphic"), number(length, 1, 10**9, "the bytes of a line")
    if kind != "A" or number(sent, 1, 10**9, "the bytes that are sent") != total or total % length:
        raise ValueError(f"a graphic {kind!r} of {total} bytes and {length} a line")
    lines = [*unpacked(data.replace("\n", "").replace("\r", ""), length)]
    if len(lines) != total // length:
        raise ValueError(f"{len(lines)} lines of a graphic, and not {total // length}")
    return Graphic(*place, lines)


def zpl(data):
    """Returns the labels that are printed, each as the list of its graphics."""
    text = data.decode("ascii")
    if not re.fullmatch(rf"\s*(?:{COMMAND.pattern})*", text):
        raise ValueError("it begins with no command, or has a command that is none")
    labels, label, place = [], None, (0, 0)
    for name, parameters in COMMAND.findall(text):
        if (name == "XA") == (label is not None):
            raise ValueError(f"^{name} at a wrong place")
        if name == "XA":
            label = []
        elif name == "FO":
            place = tuple(number(it, 0, PLACE_MAX, "a place") for it in parameters.split(","))
        elif name == "GF":
            label.append(graphic_of(parameters, place))
        elif name == "FS":
            place = (0, 0)
        elif name == "XZ":
            labels.append(label)
            label = None
        else:
            raise ValueError(f"^{name} is not known")
        if name in ("XA", "FS", "XZ") and parameters.strip():
            raise ValueError(f"^{name} with {parameters!r}")
    if label is not None:
        raise ValueError("a label without an end")
    return labels


# ---- TSPL

BITMAP = re.compile(rb"BITMAP ([0-9]+),([0-9]+),([0-9]+),([0-9]+),([0-9]+),")
SETTINGS = (b"SIZE", b"GAP", b"DIRECTION", b"REFERENCE")
PRINT = re.compile(rb"PRINT ([0-9]+)(?:,([0-9]+))?")


def tspl(data):
    """Returns the labels that are printed, each as the list of its graphics, and the graphics that wait for the command PRINT."""
    labels, label, at = [], [], 0
    while at < len(data):
        command = BITMAP.match(data, at)
        if command:
            x, y, length, count, mode = map(int, command.groups())
            end = command.end() + length * count
            if mode != 0 or not length or not count:
                raise ValueError(f"{command[0]} is not known")
            # 0 is black, and is printed over what lies there
            lines = [bytes(255 - byte for byte in data[k:k + length]) for k in range(command.end(), end, length)]
            label.append(Graphic(x, y, lines))
        else:
            end = data.find(b"\r\n", at)
            words = data[at:end] if end >= 0 else b""
            if words == b"CLS":
                label = []
            elif PRINT.fullmatch(words):
                sets, copies = (int(it or 1) for it in PRINT.fullmatch(words).groups())
                labels += [[*label]] * (sets * copies)
            elif words.split(b" ")[0] not in SETTINGS:
                raise ValueError(f"{words[:20]} is not known")
        if data[end:end + 2] != b"\r\n":
            raise ValueError("a command without an end")
        at = end + 2
    return labels, label


# ---- ESC/POS

def escpos(data):
    """Returns the lines that are printed."""
    lines, at = [], 0
    while at < len(data):
        if data[at:at + 2] == b"\x1b@":
            at += 2
        elif data[at:at + 4] == b"\x1dv0\0" and at + 8 <= len(data):
            length, count = (int.from_bytes(data[k:k + 2], "little") for k in (at + 4, at + 6))
            at, end = at + 8, at + 8 + length * count
            if not length or not count or end > len(data):
                raise ValueError(f"{count} lines of {length} bytes")
            lines += [data[k:k + length] for k in range(at, end, length)]
            at = end
        else:
            raise ValueError(f"{data[at:at + 8]} is not known")
    return lines
