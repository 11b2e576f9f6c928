"""Links the C files of ports/, the glue, with a program that calls them (tests/lib/ports_calls.c). Does the same with
glue that has one wrong line."""
import glob
import subprocess

from growths import TOP

STRICT = ["-std=c11", "-O2", "-Wall", "-Wextra", "-pedantic", "-Werror", "-Wno-alloc-size-larger-than"]
WORDS = ["", "a word", "\u00e4", "x" * 3000]
# What is wrong, a text of ports/ that stands there once, and another one in its place.
WRONG = {
    "a block is 8 bytes off": ("tried(malloc(size ? size : alignment))", "tried((char *)malloc((size ? size : alignment) + 8) + 8)"),
    "a block is a byte off": ("tried(malloc(size ? size : alignment))", "tried((char *)malloc((size ? size : alignment) + 1) + 1)"),
    "a block that grew is a byte off": ("tried(realloc(old, size ? size : alignment))",
                                        "tried((char *)realloc(old, (size ? size : alignment) + 1) + 1)"),
    "a refusal is no refusal": ("(struct tried){block != NULL,", "(struct tried){1,"),
    "a word that does not fit is cut": ("return -2;", "return (int64_t)room;"),
    "the last word is missing": ("i >= (uint64_t)count", "i + 1 >= (uint64_t)count"),
}


def called(room, compiler, words=(), wrong=None):
    """Returns what the calls say of the glue; `words` run the program, and `wrong` is a row of WRONG."""
    old, new = WRONG.get(wrong, ("", ""))
    sources, found = [f"{TOP}/tests/lib/ports_calls.c"], 0
    for path in sorted(glob.glob(f"{TOP}/ports/*.c")):
        with open(path, encoding="utf-8") as it:
            text = it.read()
        found += text.count(old) if old else 0
        sources.append(f"{room}/glue_{len(sources)}.c")
        with open(sources[-1], "w", encoding="utf-8") as it:
            it.write(text.replace(old, new) if old else text)
    if wrong and found != 1:
        return f"ports/ has {old!r} {found} times"
    made = subprocess.run([compiler, *STRICT, "-o", f"{room}/ports_calls", *sources], capture_output=True)
    if made.returncode:
        return made.stderr[:300].decode(errors="replace")
    ran = subprocess.run([*words, f"{room}/ports_calls", *WORDS], capture_output=True, timeout=120)
    return ran.stdout.decode(errors="replace") + ("" if ran.returncode == 0 else f"status {ran.returncode}")


def faults(room, compiler, words=()):
    """Returns the wrong glue that no call notices."""
    return [wrong for wrong in WRONG if not called(room, compiler, words, wrong).startswith("FAILED: ")]
