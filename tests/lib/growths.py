"""Runs programs under the allocator of tests/lib/refusing_allocator.c, which refuses one growth of memory, and builds the program
of crates/alloc_trials."""
import os
import subprocess

TOP = os.path.dirname(os.path.dirname(os.path.dirname(os.path.realpath(__file__))))
from kit import Repository

MOST = 5000  # growths: more than any call here takes
# The words with which tests/lib/library_calls.c makes one call, in which a growth may be refused.
LIBRARY_CALLS = ("encode", "encode_bits", "encode_logo", "encode_series", "read", "mend", "draw", "document", "pdf", "sheets", "parse_drawing", "find",
                 "encode_eci", "encode_gs1", "encode_series_gs1", "read_ecis", "read_gs1", "mend_ecis")
TRIALS = os.path.realpath(os.environ.get("TRIALS", f"{TOP}/crates/alloc_trials/out/alloc_trials"))


def build_trials():
    """Builds the program of crates/alloc_trials and its object file, if one is missing or older than a source. Returns why that
    fails, or None. (`rt ci` leaves no object file if an earlier run on the same machine proved the same files.)"""
    if "TRIALS" in os.environ:
        return None if os.access(TRIALS, os.X_OK) else f"{TRIALS} is no program"
    repository, made = Repository(TOP), [TRIALS, f"{TRIALS}.o"]
    if not repository.is_old("alloc_trials", made):
        return None
    print("crates/alloc_trials is proved and built", flush=True)
    ran = subprocess.run(["rt", "run", "--cpu", "x86-64", "--", "nothing"], cwd=repository.folder("alloc_trials"), capture_output=True, text=True)
    return None if all(map(os.path.exists, made)) else f"crates/alloc_trials is not built: {(ran.stdout + ran.stderr)[-300:]}"


def allocator_in(room, compiler):
    """Returns the path of the allocator, compiled into a folder."""
    allocator = f"{room}/refusing_allocator.so"
    subprocess.run([compiler, "-O2", "-shared", "-fPIC", "-o", allocator, f"{TOP}/tests/lib/refusing_allocator.c", "-ldl"], check=True)
    return allocator


def run(allocator, growth, words, given, is_emulated=False):
    """Runs a program with one growth refused. Returns its status, what it wrote, and whether a growth was refused. If the words
    begin with an emulator, the allocator is the program's and not the emulator's."""
    at, to = os.pipe()
    loaded = {"QEMU_SET_ENV": f"LD_PRELOAD={allocator}"} if is_emulated else {"LD_PRELOAD": allocator}
    how = {**loaded, "REFUSED_GROWTH": str(growth), "REFUSAL_TOLD_TO": str(to)}
    try:
        ran = subprocess.run(words, input=given, capture_output=True, env=how, pass_fds=[to], timeout=60)
    finally:
        os.close(to)
        with os.fdopen(at, "rb") as told:
            is_refused = told.read() != b""
    return ran.returncode, ran.stdout, ran.stderr, is_refused
