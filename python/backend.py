#!/usr/bin/env python3
"""Makes what pip installs: a wheel, which holds the shared library, or the source distribution, which holds the C file.

    backend.py LIBRARY FOLDER             a wheel for the system that the library is for
    backend.py --sources C_FILE FOLDER    the source distribution; the header has to be beside the C file

It is also what pip and other builders call. `pip wheel python/` takes the library at the path in QRPROVED_LIBRARY, or the one
that `make lib` built. In the source distribution it compiles the C file, by the compiler that the variable CC names or that the
system usually has. Nothing but the standard library is used, and for libraries of Linux readelf, and no network.

A wheel is a zip of the package with its description, a tag that says where it runs, and the checksums of its files."""
import base64
import gzip
import hashlib
import io
import os
import platform
import re
import shlex
import shutil
import subprocess
import sys
import sysconfig
import tarfile
import tempfile
import zipfile
from pathlib import Path

HERE = Path(__file__).resolve().parent
BUILT = HERE.parent / "crates/qrproved/out/lib/libqrproved.so.1"
MADE = HERE.parent / "out/c/qrproved.c"  # by `make c`
INSIDE = HERE / "c/qrproved.c"  # of the source distribution
# The machines of Linux, and the oldest version of glibc that a wheel of each can ask for.
MACHINES = {"Advanced Micro Devices X86-64": ("x86_64", (2, 5)), "AArch64": ("aarch64", (2, 17))}
MUSL = (1, 1)  # the oldest version of musl that a wheel can ask for
MACOS = "11_0"  # the oldest macOS that a library is made for
# How the libraries of other systems begin, and the tags of their wheels. The numbers are those of the machines.
MACHO = {b"\xcf\xfa\xed\xfe\x07\0\0\1": f"macosx_{MACOS}_x86_64", b"\xcf\xfa\xed\xfe\x0c\0\0\1": f"macosx_{MACOS}_arm64"}
PE, PE_X86_64 = b"MZ", b"PE\0\0\x64\x86"
DATE = (1980, 1, 1, 0, 0, 0)  # of all files, so that what is made is the same wherever it is made
SECONDS = 315532800  # until this date


def section_of_project(section):
    """Returns the names and texts of a section of pyproject.toml; tomllib is newer than Python 3.9."""
    after = (HERE / "pyproject.toml").read_text(encoding="utf-8").split(f"[{section}]\n")[1]
    return dict(re.findall(r'^([a-z-]+) = "(.*)"$', after.split("\n[")[0], re.MULTILINE))


def name_of_project():
    it = section_of_project("project")
    return f"{it['name']}-{it['version']}"


def metadata():
    it = section_of_project("project")
    described = (HERE / it["readme"]).read_text(encoding="utf-8")
    return (f"Metadata-Version: 2.1\nName: {it['name']}\nVersion: {it['version']}\nSummary: {it['description']}\n"
            f"Requires-Python: {it['requires-python']}\nDescription-Content-Type: text/markdown\n\n{described}").encode()


def files_of_package():
    return {f"qrproved/{path.name}": path.read_bytes()
            for path in sorted((HERE / "qrproved").iterdir()) if path.suffix in (".py", ".json") or path.name == "py.typed"}


def name_in_package(system):
    """Returns the path of the library in a wheel: of the names of systems in qrproved/_library.py, whose text is read since
    nothing of the package can be imported without a library."""
    named = re.search(r"^FILES = \{(.*)\}$", (HERE / "qrproved/_library.py").read_text(encoding="utf-8"), re.MULTILINE)
    names = dict(re.findall(r'"(\w+)": "([^"]+)"', named.group(1)))
    return f"qrproved/{names.get(system, names['linux'])}"


def platforms_of_linux(library):
    """Returns the platforms by what a library of Linux needs: its machine, and the least version of the C library. Without a
    library that it names it runs with glibc and with musl."""
    words = ["readelf", "--wide", "--file-header", "--dynamic", "--version-info", str(library)]
    said = subprocess.run(words, check=True, capture_output=True, text=True, env={**os.environ, "LC_ALL": "C"}).stdout
    needed = re.findall(r"\(NEEDED\)\s+Shared library: \[(.*)\]", said)
    if set(needed) - {"libc.so.6"}:
        sys.exit(f"backend.py: {library} needs more than the C library: {', '.join(needed)}")
    machine = re.search(r"Machine:\s+(.*)", said).group(1).strip()
    if machine not in MACHINES:
        sys.exit(f"backend.py: {library} is for another machine: {machine}")
    name, oldest = MACHINES[machine]
    versions = [tuple(map(int, it.split(".")[:2])) for it in re.findall(r"Name: GLIBC_([0-9.]+)", said)]
    manylinux = "manylinux_{}_{}_{}".format(*max([oldest, *versions]), name)
    return [manylinux] if needed else [manylinux, "musllinux_{}_{}_{}".format(*MUSL, name)]


def system_of(library):
    """Returns the name of the system that a library is for, and the platforms of its wheel."""
    start = library.read_bytes()[:4096]
    if start[:8] in MACHO:
        return "darwin", [MACHO[start[:8]]]
    if start.startswith(PE) and PE_X86_64 in start:
        return "win32", ["win_amd64"]
    return "linux", platforms_of_linux(library)


def row_of_record(name, content):
    digest = base64.urlsafe_b64encode(hashlib.sha256(content).digest()).rstrip(b"=").decode()
    return f"{name},sha256={digest},{len(content)}\n"


def make(library, folder, system=None):
    """Writes the wheel with a library into a folder, and returns its name. `system` is what system_of would return."""
    if not library.is_file():
        sys.exit(f"backend.py: there is no library at {library}: run make lib")
    name, (system, platforms) = name_of_project(), system or system_of(library)
    info, in_package = f"{name}.dist-info", name_in_package(system)
    files = {**files_of_package(), in_package: library.read_bytes(), f"{info}/METADATA": metadata()}
    commands = "".join(f"{name} = {call}\n" for name, call in section_of_project("project.scripts").items())
    files[f"{info}/entry_points.txt"] = f"[console_scripts]\n{commands}".encode()
    tags = "".join(f"Tag: py3-none-{it}\n" for it in platforms)
    files[f"{info}/WHEEL"] = f"Wheel-Version: 1.0\nGenerator: qrproved\nRoot-Is-Purelib: false\n{tags}".encode()
    record = "".join(row_of_record(name, content) for name, content in files.items()) + f"{info}/RECORD,,\n"
    files[f"{info}/RECORD"] = record.encode()
    name = f"{name}-py3-none-{'.'.join(platforms)}.whl"
    folder.mkdir(parents=True, exist_ok=True)
    with zipfile.ZipFile(folder / name, "w", zipfile.ZIP_DEFLATED) as wheel:
        for path, content in files.items():
            entry = zipfile.ZipInfo(path, DATE)
            entry.create_system = 3  # that of the modes: Unix
            entry.compress_type = zipfile.ZIP_DEFLATED
            entry.external_attr = (0o755 if path == in_package else 0o644) << 16
            wheel.writestr(entry, content)
    return name


def make_sources(c_file, folder):
    """Writes the source distribution with a C file into a folder, and returns its name."""
    name, texts = name_of_project(), ["backend.py", "pyproject.toml", "README.md"]
    files = {**files_of_package(), **{it: (HERE / it).read_bytes() for it in texts}, "PKG-INFO": metadata()}
    for path in (c_file, c_file.with_name("qrproved.h")):
        files[f"c/{path.name}"] = path.read_bytes()
    packed = io.BytesIO()
    with tarfile.open(fileobj=packed, mode="w", format=tarfile.USTAR_FORMAT) as tar:
        for path, content in sorted(files.items()):
            entry = tarfile.TarInfo(f"{name}/{path}")
            entry.mtime, entry.mode, entry.size = SECONDS, 0o644, len(content)
            tar.addfile(entry, io.BytesIO(content))
    folder.mkdir(parents=True, exist_ok=True)
    with open(folder / f"{name}.tar.gz", "wb") as file, gzip.GzipFile("", "wb", 9, file, mtime=SECONDS) as zipped:
        zipped.write(packed.getvalue())
    return f"{name}.tar.gz"


def compiler():
    """Returns the words of the compiler: those in the variable CC, or the first program that is here of the usual ones."""
    is_windows = sys.platform == "win32"
    if os.environ.get("CC"):
        return [it.strip('"') for it in shlex.split(os.environ["CC"], posix=not is_windows)]
    usual = ("cl", "gcc", "clang") if is_windows else ("cc", "gcc", "clang")
    found = next((it for it in usual if shutil.which(it)), None)
    if found is None:
        raise RuntimeError(f"there is no C compiler: install {', '.join(usual[:-1])} or {usual[-1]}, or name one by the variable CC")
    return [found]


def calls():
    """Returns the names of the calls, which the compiler of Microsoft has to be told."""
    text = re.sub(r"/\*.*?\*/", " ", INSIDE.with_name("qrproved.h").read_text(encoding="utf-8"), flags=re.DOTALL)
    return [it for it in dict.fromkeys(re.findall(r"\b(qrproved_\w+)\(", text)) if not it.endswith("_in")]


def compiled(library):
    """Compiles the C file of the source distribution as a shared library."""
    words = compiler()
    if os.path.splitext(os.path.basename(words[0]))[0].lower() in ("cl", "clang-cl"):
        words += ["/nologo", "/O2", "/LD", str(INSIDE), f"/Fe:{library}", "/link", *(f"/EXPORT:{it}" for it in calls())]
    else:
        of_system = {"win32": [], "darwin": ["-arch", platform.machine(), f"-mmacosx-version-min={MACOS.replace('_', '.')}"]}
        words += ["-std=c99", "-O2", "-shared", *of_system.get(sys.platform, ["-fPIC"]), str(INSIDE), "-o", str(library)]
    try:
        subprocess.run(words, check=True, cwd=library.parent)
    except (OSError, subprocess.CalledProcessError) as fault:
        raise RuntimeError(f"the C file cannot be compiled: {fault}; the variable CC names another compiler") from fault
    return library


def system_here():
    """Returns the name of this system, and the platform of a wheel that is compiled here."""
    here = f"macosx_{MACOS}_{platform.machine()}" if sys.platform == "darwin" else sysconfig.get_platform()
    return sys.platform, [re.sub("[-.]", "_", here)]


def build_wheel(wheel_directory, config_settings=None, metadata_directory=None):
    """Makes the wheel for pip, and returns its name."""
    named = os.environ.get("QRPROVED_LIBRARY")
    if named or not INSIDE.exists():
        return make(Path(named or BUILT), Path(wheel_directory))
    with tempfile.TemporaryDirectory() as room:
        return make(compiled(Path(room, os.path.basename(name_in_package(sys.platform)))), Path(wheel_directory), system_here())


def build_sdist(sdist_directory, config_settings=None):
    """Makes the source distribution for pip, and returns its name."""
    c_file = next((it for it in (INSIDE, MADE) if it.exists()), None)
    if c_file is None:
        raise RuntimeError("there is no C file: make c makes it")
    return make_sources(c_file, Path(sdist_directory))


def main(words):
    if len(words) == 2:
        print(Path(words[1]) / make(Path(words[0]), Path(words[1])))
    elif len(words) == 3 and words[0] == "--sources":
        print(Path(words[2]) / make_sources(Path(words[1]), Path(words[2])))
    else:
        sys.exit("backend.py LIBRARY FOLDER, or backend.py --sources C_FILE FOLDER")


if __name__ == "__main__":
    main(sys.argv[1:])
