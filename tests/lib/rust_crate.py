"""Tests the crate for Cargo, rust/qrproved: compares its declarations with those of the header, and runs its tests with
the built library."""
import os
import re
import shutil
import subprocess

from growths import TOP
from libraries import FOR_LITTLE_MEMORY, check, counts

TYPES = {"u8": "uint8_t", "c_uchar": "uint8_t", "u32": "uint32_t", "u64": "uint64_t", "usize": "size_t"}
CASES = 6  # where there is cargo
# The caller's environment, but for what says where the library is. A backtrace would be more than is kept of an error.
CALLER = {**{name: it for name, it in os.environ.items() if not name.startswith("QRPROVED_")}, "CARGO_NET_OFFLINE": "true", "RUST_BACKTRACE": "0"}


def snake(name):
    return re.sub(r"(?<!^)([A-Z])", r"_\1", name).lower()


def in_c(name, rust):
    """Returns a parameter or a field as C declares it."""
    for pointer, c in (("*const ", "const {} *{}"), ("*mut ", "{} *{}")):
        if rust.startswith(pointer):
            kind = rust[len(pointer):]
            return c.format(TYPES.get(kind, f"struct qrproved_{snake(kind)}"), name)
    return f"{TYPES[rust]} {name}"


def declared():
    """Returns the calls, the structs and the constants of the crate, as C declares them."""
    with open(f"{TOP}/rust/qrproved/src/c.rs", encoding="utf-8") as it:
        text = re.sub(r"//[^\n]*", "", it.read())
    setting = re.search(r"pub type Setting = (\w+);", text).group(1)
    text = re.sub(r"\bSetting\b", setting, text)
    calls = {name: (TYPES[result], [in_c(*row.split(": ")) for row in re.findall(r"(\w+: [^,]+),", listed)] or ["void"])
             for name, listed, result in re.findall(r"pub fn (\w+)\((.*?)\) -> (\w+);", text, re.DOTALL)}
    structs = {f"qrproved_{snake(name)}": [in_c(*row) for row in re.findall(r"pub (\w+): (\w+),", listed)]
               for name, listed in re.findall(r"#\[repr\(C\)\].*?pub struct (\w+) \{(.*?)\}", text, re.DOTALL)}
    constants = {name: number.replace("_", "") for name, number in re.findall(r"pub const (\w+): \w+ = ([\d_]+);", text)}
    return calls, structs, constants


def of_rust_header(header):
    """Compares the crate's declarations with those of the header. The crate does not have all constants."""
    calls, structs, constants = declared()
    check("rust: the calls are the header's", calls, {name: it for name, it in header[0].items() if name not in FOR_LITTLE_MEMORY})
    check("rust: the structs are the header's", structs, header[1])
    check("rust: the constants are the header's", constants, {name: header[2].get(name) for name in constants})
    with open(f"{TOP}/rust/qrproved/src/error.rs", encoding="utf-8") as it:
        errors = {snake(name).upper(): number for name, number in re.findall(r"^    (\w+) = (\d+),$", it.read(), re.M)}
    check("rust: the errors are the header's statuses", errors, {name: header[2].get(name) for name in errors})


def tested(room, env):
    """Returns why the tests of a copy of the crate fail, or what ended well."""
    ran = subprocess.run(["cargo", "test", "--offline", "--quiet"], cwd=f"{room}/crate", capture_output=True, text=True, timeout=600,
                         env={**CALLER, "CARGO_TARGET_DIR": f"{room}/target", **env})
    results = re.findall(r"test result: (\w+)\. (\d+) passed; (\d+) failed", ran.stdout)
    if ran.returncode:
        return f"{ran.stdout[-600:]} {ran.stderr[-1500:]}"
    return len(results), all(int(passed) and result == "ok" for result, passed, _ in results)


def of_rust(shared, room):
    """Builds and tests the crate with the archive, and with the shared library as it is installed. Without a library
    the build has to fail."""
    if not shutil.which("cargo"):
        counts["skipped"] += CASES
        print("not tried: the crate for Cargo: there is no cargo")
        return
    room = f"{room}/rust"
    shutil.copytree(f"{TOP}/rust/qrproved", f"{room}/crate", ignore=shutil.ignore_patterns("target", "Cargo.lock"))
    check("rust: the tests pass with the archive", tested(room, {"QRPROVED_LIB_DIR": os.path.dirname(shared), "QRPROVED_STATIC": "1"}), (3, True))
    prefix, none = f"{room}/prefix", {"PKG_CONFIG_PATH": f"{room}/none", "PKG_CONFIG_LIBDIR": f"{room}/none"}
    said = tested(room, none)
    check("rust: without a library the build fails, and says what to set", [it in str(said) for it in ("the library is not found", "QRPROVED_LIB_DIR", "QRPROVED_STATIC=1")], [True] * 3)
    if not shutil.which("pkg-config"):
        counts["skipped"] += 4
        print("not tried: the crate for Cargo by pkg-config: there is no pkg-config")
        return
    made = subprocess.run(["make", "-s", "-C", TOP, "install-lib", f"PREFIX={prefix}"], capture_output=True, text=True)
    check("rust: make install-lib", (made.returncode, made.stderr), (0, ""))
    found = {"PKG_CONFIG_PATH": f"{prefix}/lib/pkgconfig"}
    check("rust: the tests pass with the library that pkg-config finds", tested(room, found), (3, True))
    check("rust: a program with the README's build script finds the library", of_program(room, found), "21\n")
    renumber(room)
    said = of_program(room, found)
    check("rust: a crate of another version refuses the library", "and the crate qrproved needs 0.1.0" in said or said)


def renumber(room):
    """Lets a copy of the crate need the library of version 0.1.0."""
    path = f"{room}/crate/src/c.rs"
    with open(path, encoding="utf-8") as it:
        text = re.sub(r"(VERSION_NUMBER: u32 =) \d+;", r"\1 100;", it.read())
    with open(path, "w", encoding="utf-8") as it:
        it.write(text)


def of_program(room, env):
    """Runs a program of another crate, which uses the build script of the README; returns what it writes."""
    with open(f"{room}/crate/README.md", encoding="utf-8") as it:
        script = re.search(r"```rust,no_run\n(.*?)```", it.read(), re.DOTALL).group(1)
    files = {"Cargo.toml": '[package]\nname = "label"\nversion = "1.0.0"\nedition = "2021"\n[dependencies]\nqrproved = { path = "../crate" }\n',
             "build.rs": f"fn main() {{\n{script}}}\n",
             "src/main.rs": 'use qrproved::{encode, Level, Options, Version};\nfn main() {\n    println!("{}", encode(b"A", Version::MIN, Level::L,'
                            ' &Options::default()).unwrap().side());\n}\n'}
    os.makedirs(f"{room}/label/src", exist_ok=True)
    for name, text in files.items():
        with open(f"{room}/label/{name}", "w", encoding="utf-8") as it:
            it.write(text)
    ran = subprocess.run(["cargo", "run", "--offline", "--quiet"], cwd=f"{room}/label", capture_output=True, text=True, timeout=600,
                         env={**CALLER, "CARGO_TARGET_DIR": f"{room}/target", **env})
    return ran.stdout if ran.returncode == 0 else ran.stderr[-600:]
