"""Finds the shared library, and declares its calls as include/qrproved.h does."""
from __future__ import annotations

import ctypes
import ctypes.util
import os
import sys
from ctypes import c_size_t, c_uint8, c_uint32, c_uint64, c_void_p
from pathlib import Path

from ._common import INTERPRETATIONS, LIMITS

VARIABLE = "QRPROVED_LIBRARY"
# What the library is called on a system; the number is that of its ABI. The names of systems are those of sys.platform.
FILES = {"linux": "libqrproved.so.1", "darwin": "libqrproved.1.dylib", "win32": "qrproved.dll"}

VERSION_NUMBER = 200  # the structs and the calls may change with each version

SIDE_MAX, COUNT_MAX, MARGIN_MAX = LIMITS["SIDE_MAX"], LIMITS["COUNT_MAX"], LIMITS["MARGIN_MAX"]
SYMBOL_MAX, SERIES_MAX, BYTES_MAX, ECIS_MAX = LIMITS["SYMBOL_MAX"], LIMITS["SERIES_MAX"], LIMITS["BYTES_MAX"], LIMITS["ECIS_MAX"]
FOUND_MAX, PICTURE_MAX = LIMITS["FOUND_MAX"], LIMITS["PICTURE_MAX"]

DEFAULT, GS1 = INTERPRETATIONS["DEFAULT"], INTERPRETATIONS["GS1"]  # a smaller number is that of an ECI


class Symbol(ctypes.Structure):
    _fields_ = [("version", c_uint8), ("side", c_uint8), ("level", c_uint8), ("mask", c_uint8)]


class Series(ctypes.Structure):
    _fields_ = [("count", c_uint8), ("side", c_uint8)]


class Eci(ctypes.Structure):
    _fields_ = [("begin", c_uint64), ("number", c_uint32), ("unused", c_uint32)]


HEADED = [(name, c_uint8) for name in ("version", "has_header", "position", "last", "parity", "fnc1", "application", "has_kanji")]
DAMAGED = [(name, c_uint8) for name in ("wrong_format_modules", "wrong_format_least", "changed_most", "changed_allowed", "spent_most",
                                        "worst_misread", "worst_unknown", "worst_unknown_wrong")]


class Content(ctypes.Structure):
    _fields_ = [("len", c_uint64), ("eci_count", c_uint64), *HEADED]


class Mended(ctypes.Structure):
    _fields_ = [("len", c_uint64), ("eci_count", c_uint64), ("wrong_modules", c_uint32), *HEADED, ("level", c_uint8), ("mask", c_uint8), *DAMAGED]


class Drawn(ctypes.Structure):
    _fields_ = [("drawing", c_uint8), ("margin", c_uint8), ("count", c_uint8), ("side", c_uint8)]


class Sheet(ctypes.Structure):
    _fields_ = [(name, c_uint32) for name in ("width", "height", "left", "top", "across", "down", "columns", "rows", "first")]


class Found(ctypes.Structure):
    _fields_ = [*((f"{axis}{k}", c_uint32) for k in range(4) for axis in "xy"), ("side", c_uint32),
                *((name, c_uint8) for name in ("quarter_turns", "is_inverse", "is_mirrored", "is_read"))]


# A version, a level, an interpretation, a side or another number of 32 bits. ctypes cuts a larger one, so callers check it first.
SETTING = c_uint32
BYTES = [ctypes.c_char_p, c_size_t]
BUFFER = [c_void_p, c_size_t]
PARAMETERS = {
    "qrproved_encode": [*BYTES, SETTING, SETTING, SETTING, SETTING, SETTING, *BUFFER, ctypes.POINTER(Symbol)],
    "qrproved_encode_logo": [*BYTES, *[SETTING] * 6, *BUFFER, ctypes.POINTER(Symbol), ctypes.POINTER(c_uint8)],
    "qrproved_encode_series": [*BYTES, SETTING, SETTING, SETTING, SETTING, *BUFFER, ctypes.POINTER(Series)],
    "qrproved_set_mask": [*BUFFER, SETTING, SETTING],
    "qrproved_read": [*BYTES, SETTING, *BUFFER, *BUFFER, ctypes.POINTER(Content)],
    "qrproved_mend": [*BYTES, SETTING, *BUFFER, *BUFFER, ctypes.POINTER(Mended)],
    "qrproved_draw": [*BYTES, SETTING, SETTING, SETTING, SETTING, *BUFFER, ctypes.POINTER(c_size_t)],
    "qrproved_document": [*BYTES, *[SETTING] * 5, *BUFFER, ctypes.POINTER(c_size_t)],
    "qrproved_sheets": [*BYTES, *[SETTING] * 4, ctypes.POINTER(Sheet), *BUFFER, ctypes.POINTER(c_size_t)],
    "qrproved_image": [*BYTES, *[SETTING] * 7, *BUFFER, ctypes.POINTER(c_size_t)],
    "qrproved_png": [*BYTES, *[SETTING] * 6, *BUFFER, ctypes.POINTER(c_size_t)],
    "qrproved_pdf": [*BYTES, *[SETTING] * 6, *BUFFER, ctypes.POINTER(c_size_t)],
    "qrproved_parse_drawing": [*BYTES, *BUFFER, ctypes.POINTER(Drawn)],
    "qrproved_find": [*BYTES, *[SETTING] * 4, *BUFFER, *BUFFER, ctypes.POINTER(c_size_t)],
    "qrproved_room": [SETTING, SETTING, SETTING, SETTING, SETTING, ctypes.POINTER(c_uint32)],
}


def name_of_file() -> str:
    """Returns what the library is called on this system: as on Linux, unless the system has a name of its own for it."""
    return FILES.get(sys.platform, FILES["linux"])


def path_of_library() -> str:
    """Returns the path in the environment variable, that beside the package, or what the system finds. Raises ImportError if
    there is none."""
    wanted = os.environ.get(VARIABLE)
    if wanted:
        return wanted
    beside = Path(__file__).with_name(name_of_file())
    if beside.exists():
        return str(beside)
    found = ctypes.util.find_library("qrproved")
    if found is None:
        raise ImportError(f"{name_of_file()} is neither beside the package nor among the system's libraries; set {VARIABLE} to its path")
    return found


def load() -> ctypes.CDLL:
    """Returns the library with the types of its calls. Raises ImportError if it is missing, lacks a call or has another version."""
    path = path_of_library()
    try:
        library = ctypes.CDLL(path)
        library.qrproved_version.argtypes, library.qrproved_version.restype = [], c_uint32
        version = library.qrproved_version()
        if version != VERSION_NUMBER:
            raise ImportError(f"{path} cannot be used: its version is {_named(version)}, and that of the package {_named(VERSION_NUMBER)}")
        for name, parameters in PARAMETERS.items():
            call = getattr(library, name)
            call.argtypes, call.restype = parameters, c_uint8
    except (OSError, AttributeError) as fault:
        raise ImportError(f"{path} cannot be used: {fault}") from fault
    return library


def _named(number: int) -> str:
    """Returns the version of a number, as include/qrproved.h makes it."""
    return f"{number // 10000}.{number // 100 % 100}.{number % 100}"
