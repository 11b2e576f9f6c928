"""What this package and that for JavaScript share: common.json, of which js/build makes a module."""
from __future__ import annotations

import json
from pathlib import Path

# common.json has twelve parts:
#   limits           the greatest sizes and counts, those of include/qrproved.h by their names there; widths of modules are in millimetres. DPI is the resolution of
#                    most label printers, and DOTS how many of its dots a module has, if nothing else is said. MICROMETRES is the width of a module of a document for print
#                    if nothing else is said, and PAPER_MAX that of the largest paper. CONTRAST_MIN is the least contrast of two colours (WCAG 2.1)
#   interpretations  the numbers of some ECIs, and those of the header that are no ECIs
#   formats          the numbers of the header's formats of images
#   documents        the numbers of the header's formats of documents for print
#   labels           what a file with several labels has before each and after it
#   colours          the colours of CSS 2.1 by their names
#   grades           the least percentage of unused error correction for each grade of ISO/IEC 15415
#   modes            what the characters of each mode are called, with the mode's number in the header
#   modes_of_rules   how many of these modes each rule of the header allows, by the rule's number
#   statuses         the names of the header's statuses, by their numbers from 0 on, and what an error of each says
#   ecis             the numbers of the ECIs whose characters are known, with the names of their sets in Python and in JavaScript. Of 20, 29,
#                    30 and 32 these are the larger sets that browsers decode. js/interpretation.js has the sets that browsers do not name
#   shift_jis        characters of JIS X 0208 that systems have by one code point or by another; Python has them by the first
DATA = json.loads(Path(__file__).with_name("common.json").read_text(encoding="utf-8"))
LIMITS, INTERPRETATIONS = DATA["limits"], DATA["interpretations"]
STATUSES = {name: (number, text) for number, (name, text) in enumerate(DATA["statuses"].items())}
