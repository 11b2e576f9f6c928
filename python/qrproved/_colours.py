"""The colours of a drawing, and whether scanners tell its modules apart."""
from __future__ import annotations

import re
from typing import Optional, Tuple

from ._common import DATA, LIMITS
from ._errors import SettingsError

Colours = Tuple[str, Optional[str]]  # of dark and light modules, as # and six digits; light ones may have none
DARK, LIGHT = "#000000", "#ffffff"
PLAIN: Colours = DARK, LIGHT
NAMES = DATA["colours"]


def colour_of(name: str, text: str) -> str:
    """Returns a colour as # and six digits."""
    if not isinstance(text, str):
        raise TypeError(f"{name} is a colour as a text, and not of type {type(text).__name__}")
    digits = NAMES.get(text.lower()) or (text[1:].lower() if text.startswith("#") else "")
    if not re.fullmatch("[0-9a-f]{3}|[0-9a-f]{6}", digits):
        raise SettingsError(f"{name} is #rgb, #rrggbb or one of {', '.join(NAMES)}, and not {text!r}")
    return "#" + (digits if len(digits) == 6 else "".join(2 * it for it in digits))


def luminance(colour: str) -> float:
    """Returns the relative luminance of WCAG 2.1, from 0 for black to 1 for white."""
    shares = [int(colour[k:k + 2], 16) / 255 for k in (1, 3, 5)]
    red, green, blue = (it / 12.92 if it <= 0.03928 else ((it + 0.055) / 1.055) ** 2.4 for it in shares)
    return 0.2126 * red + 0.7152 * green + 0.0722 * blue


def colours_of(dark: str, light: Optional[str], inverse: bool) -> Colours:
    """Returns the colours of the modules. The light ones may have none: then the ground is taken for white, or for black if the symbol is
    inverse. Raises SettingsError if scanners cannot tell them apart, or if dark is the lighter one and that was not asked for."""
    colours = colour_of("dark", dark), None if light is None else colour_of("light", light)
    of_dark, of_light = luminance(colours[0]), luminance(colours[1] or (DARK if inverse else LIGHT))
    contrast = (max(of_dark, of_light) + 0.05) / (min(of_dark, of_light) + 0.05)
    if contrast < LIMITS["CONTRAST_MIN"]:
        raise SettingsError(f"the colours have a contrast of {contrast:.1f}, and scanners need {LIMITS['CONTRAST_MIN']}")
    if (of_dark > of_light) != inverse:
        raise SettingsError("inverse is for dark modules that are lighter than the others, and these are darker" if inverse
                            else "the dark modules are lighter than the others, which many scanners do not read; inverse allows it")
    return colours


def numbers_of(colours: Colours) -> tuple[int, int]:
    """Returns the colours as the library takes them, 0xRRGGBBAA. A ground without a colour is white that is not seen."""
    dark, light = colours
    return int(dark[1:] + "ff", 16), int(LIGHT[1:] + "00" if light is None else light[1:] + "ff", 16)
