"""200 commands of the program with their inputs, the same on every machine. The types of drawing take turns."""
import hashlib

COMMANDS = 200
TYPES = ["ASCII", "ASCIIi", "UTF8", "SVG"]


def number(*parts):
    return int.from_bytes(hashlib.sha256(repr(parts).encode()).digest()[:4], "big")


def data_of(k):
    """Returns the input of a command: digits, capitals, any bytes or kanji pairs, or some of each."""
    made = b""
    while len(made) < number("length", k) % (2500 if k % 5 == 0 else 200):
        part, length = number("part", k, len(made)) % 4, 1 + number("run", k, len(made)) % 30
        alphabet = [b"0123456789", b"ABCDEFGHIJ $%*+-./:", bytes(range(256)), None][part]
        made += b"".join(b"\x93\x5f" if alphabet is None else alphabet[(at := number(k, len(made), i) % len(alphabet)):at + 1]
                         for i in range(length))
    return made


def settings(k):
    """Returns the type, level and margin of a command, its version or None, whether it draws a series, and its options."""
    is_series = k % 7 == 0
    version = 1 + number("version", k) % 40 if is_series else number("version", k) % 41 if k % 3 == 0 else None
    options = [option for option in ("-8", "-k", "-i") if number(option, k) % 4 == 0]
    return TYPES[k % len(TYPES)], "LMQH"[number("level", k) % 4], number("margin", k) % 12, version, is_series, options


def words_of(kind, level, margin, version, is_series, options):
    words = ["-t", kind, "-l", level, "-m", str(margin), *(["-S"] if is_series else [])]
    return [*words, *([] if version is None else ["-v", str(version)]), *options]


def command(k):
    """Returns the arguments and the input of a command. Some of the commands are faults."""
    words = words_of(*settings(k))
    if k % 40 == 39:
        words += [["-t", "PNG"], ["-h"], ["-v", "41"], ["--", "-v"], ["a", "b"]][k // 40]
    return words, data_of(k)
