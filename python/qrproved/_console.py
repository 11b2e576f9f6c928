"""What the commands say, and how they are called."""
from __future__ import annotations

import contextlib
import glob
import os
import sys

PROGRAM = "qrproved" if os.path.splitext(os.path.basename(sys.argv[0]))[0] == "qrproved" else "python -m qrproved"
INPUT = "standard input"


def say(text: str) -> None:
    print(f"qrproved: {text}", file=sys.stderr)


def is_printed(lines: list[str]) -> bool:
    """Prints lines, and returns whether anybody reads them: a program like head ends before them."""
    try:
        print("\n".join(lines), flush=True)
    except BrokenPipeError:
        end_output()
        return False
    return True


def end_output() -> None:
    """Sends nowhere what cannot be written, so that the interpreter does not try it again when it ends, and complain."""
    try:
        sys.stdout.flush()
    except OSError:
        with contextlib.suppress(OSError):  # of a stream that is no file
            os.dup2(os.open(os.devnull, os.O_WRONLY), sys.stdout.fileno())


def named(paths: list[str]) -> list[str]:
    """Returns the files that arguments name. On Windows a pattern such as *.png comes here as it is, since no shell has replaced it."""
    if sys.platform != "win32":
        return paths
    return [it for path in paths for it in ([] if os.path.exists(path) else sorted(glob.glob(path))) or [path]]
