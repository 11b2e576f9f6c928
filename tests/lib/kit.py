"""What the scripts need when they call the kit's compiler without `rt`: where it is, which crates the repository has, which
arguments `rt` passes it for a crate, and whether what was built is old.

These scripts stand in for `rt`. For each it is said what the kit would have to offer so that it could call `rt`:

- tests/after_ci/rt builds the program and the library in the gate, over the libraries that `rt ci` proved. `rt run` and `rt lib`
  would have to take these libraries: today they prove them again, since `rt ci` leaves no record of what they were made of.
- ports/module, which calls tests/after_ci/rt with a toolchain of its own, keeps the library's LLVM module, of which WebAssembly
  and C are made. `rt lib` would have to write this module.
- tests/wrong_bodies checks crates with changed lines. `rt must-fail` would have to take edits from another folder, to begin with what
  `rt ci` proved, to try several edits in one check, and to say which goals it refused.

With all three, this file would have left only what crates.txt says, and `is_old`."""
import functools
import glob
import os
import subprocess

# (a script that stands in for `rt` has the kit's own in the variable RT)
RT = os.environ.get("RT", "rt")
KIT = os.path.dirname(subprocess.run([RT, "doc"], check=True, capture_output=True, text=True).stdout.strip())
RATTLE = f"{KIT}/bin/rattle"
PARTS = ("src", "specs", "proofs")


class Repository:
    """The crates that the file crates.txt of a folder lists."""

    def __init__(self, top):
        self.top = os.path.realpath(top)
        # tools/build proves some crates in the folders out/beside/NAME of a repository
        above, _, name = self.top.rpartition("/out/beside/")
        self.begun = f"{above if above and '/' not in name else self.top}/out/proved_by_ci"
        with open(f"{self.top}/crates.txt", encoding="utf-8") as it:
            rows = [line.split(":", 1) for line in it.read().splitlines() if line.strip() and not line.startswith("#")]
        self.uses = {row[0].split()[0]: row[1].split() for row in rows}
        self.static = {row[0].split()[0] for row in rows if "staticlib" in row[0].split()}

    def folder(self, name):
        return f"{self.top}/crates/{name}"

    def rlib(self, name):
        return f"{self.folder(name)}/out/rlib/{name}.rlib"

    def below(self, name):
        """Returns the libraries of the repository that a crate uses, each once. A library comes after those that it
        uses itself."""
        return list(dict.fromkeys(it for used in self.uses[name] if used in self.uses for it in [*self.below(used), used]))

    def files(self, name):
        """Returns the files that the proof of a crate reads."""
        files = [it for part in PARTS for it in glob.glob(f"{self.folder(name)}/{part}/**/*", recursive=True)]
        return sorted(it for it in files if os.path.isfile(it))

    def is_old(self, name, made):
        """Returns whether one of the files that are built from a crate is missing, or older than a source of the crate
        or of a crate that it uses. (A proof is no source here, since the program does not depend on it.)"""
        files = [it for used in [name, *self.below(name)] for it in self.files(used) if "/proofs/" not in it]
        newest = max(map(os.path.getmtime, files))
        return not all(os.path.exists(it) and os.path.getmtime(it) >= newest for it in made)

    def is_built(self, name):
        return os.path.exists(f"{self.rlib(name)}/format")

    def is_left_by_ci(self, name):
        """Returns whether the library is the one that `rt ci` left in the last run of tests/all, and no file of its
        crate is newer. The file out/proved_by_ci has the time at which that `rt ci` began. (A library that `rt check`
        made has a file `stamp`.)"""
        if not self.is_built(name) or not os.path.exists(self.begun) or os.path.exists(f"{self.folder(name)}/out/rlib/stamp"):
            return False
        return all(os.path.getmtime(it) <= os.path.getmtime(self.begun) for it in self.files(name))

    @functools.cache
    def words(self, name):
        """Returns the compiler's arguments for a crate, in its folder."""
        root = "src/main.rt" if os.path.exists(f"{self.folder(name)}/src/main.rt") else "src/lib.rt"
        words = ["--crate-name", name, root, *(["--crate-type", "staticlib"] if name in self.static else [])]
        for used in ["std", *self.uses[name]]:
            words += ["--extern", f"{used}={self.rlib(used) if used in self.uses else f'{KIT}/rlibs/{used}.rlib'}"]
        for folder in [f"{KIT}/rlibs", *(os.path.dirname(self.rlib(it)) for it in self.below(name))]:
            words += ["-L", f"dependency={folder}"]
        logic = ["--antt-project", f"{KIT}/rattle/logic/antt-project.json", "--logic-built", f"{KIT}/logic_built"]
        return [*words, *logic, "--links", f"{name}="]
