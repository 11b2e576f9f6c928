#!/usr/bin/env python3
"""Writes the symbol of a text as an SVG file: svg.py TEXT FILE. The package is in python/."""
import sys

import qrproved

try:
    text, file = sys.argv[1:]
    document = qrproved.encode(text).svg()
    with open(file, "wb") as it:
        it.write(document)
except (ValueError, OSError, qrproved.Error) as fault:
    sys.exit(f"svg.py: {fault}")
