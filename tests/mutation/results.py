"""Keeps the verdicts of earlier runs of the script wrong_bodies, each with a checksum of all that it depends on."""
import glob
import hashlib
import json
import os
import threading

from kit import KIT


def kit_sum(scripts):
    """Returns a checksum of these scripts and of the kit: of its name, and of the size and time of each file that a
    check reads."""
    made = hashlib.sha256()
    for file in (*scripts, f"{KIT}/KIT-ID", *sorted(glob.glob(f"{KIT}/rlibs/*/format"))):
        with open(file, "rb") as it:
            made.update(it.read())
    for part in ("bin", "logic_built", "rattle/logic", "rattle/antt"):
        for at, folders, files in os.walk(f"{KIT}/{part}"):
            folders.sort()
            for name in sorted(files):
                found = os.lstat(f"{at}/{name}")
                made.update(f"{at[len(KIT):]}/{name} {found.st_size} {found.st_mtime_ns}\n".encode())
    return made.hexdigest()


def ground_of(repository, kit, name):
    """Returns a checksum of all that a verdict on a crate depends on, without the wrong body. This is the kit, the
    crate's line in crates.txt, its files, and the libraries below it as they are built. (The file `format` of such a
    library holds a checksum of its files.)"""
    made = hashlib.sha256(repr((kit, name, repository.uses[name], name in repository.static)).encode())
    for file in [*repository.files(name), *(f"{repository.rlib(it)}/format" for it in repository.below(name))]:
        with open(file, "rb") as it:
            made.update(repr((os.path.relpath(file, repository.top), it.read())).encode())
    return made.hexdigest()


def sum_of(ground, edit):
    return hashlib.sha256(repr((ground, edit.name, edit.text)).encode()).hexdigest()


class Results:
    """The file of verdicts."""

    def __init__(self, file, is_anew):
        self.file, self.lock, self.found = file, threading.Lock(), {}
        try:
            with open(file, encoding="utf-8") as it:
                self.found = {} if is_anew else json.load(it)
        except (OSError, ValueError):
            pass

    def known(self, crate, edit, ground):
        """Returns the verdict of an earlier run and its reason, if nothing that it depends on has changed."""
        found = self.found.get(f"{crate}/{edit.name}")
        return tuple(found[1:3]) if isinstance(found, list) and len(found) == 3 and found[0] == sum_of(ground, edit) else None

    def keep(self, crate, ground, given):
        names = {f"{crate}/{edit.name}": [sum_of(ground, edit), *verdict] for edit, verdict in given.items()}
        if names:
            self.write(lambda found: {**found, **names})

    def forget(self, crate, names):
        gone = {f"{crate}/{it}" for it in names} & {*self.found}
        if gone:
            self.write(lambda found: {key: it for key, it in found.items() if key not in gone})

    def write(self, change):
        with self.lock:
            self.found = change(self.found)
            os.makedirs(os.path.dirname(self.file) or ".", exist_ok=True)
            with open(f"{self.file}.new", "w", encoding="utf-8") as it:
                json.dump(self.found, it, indent=0, sort_keys=True)
            os.replace(f"{self.file}.new", self.file)
