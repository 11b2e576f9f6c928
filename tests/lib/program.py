"""The path of the program that `make install` installs. ./qrencode builds it for every x86-64 processor; `rt ci` makes
builds of its own. The environment variable PROGRAM can name another program. Also finds the C compiler, which the
variable CC can name."""
import os
import shutil
import sys

TOP = os.path.dirname(os.path.dirname(os.path.dirname(os.path.realpath(__file__))))
PROGRAM = os.path.realpath(os.environ.get("PROGRAM", f"{TOP}/out/x86-64/qrencode"))


def c_compiler():
    """Returns the path of the C compiler, or None if there is none. What CC names has to be there, and without options."""
    named = os.environ.get("CC")
    found = shutil.which(named or "cc")
    if named and not found:
        sys.exit(f"CC is {named!r}, which is not the name of a program: these tests take a compiler without options")
    return found
