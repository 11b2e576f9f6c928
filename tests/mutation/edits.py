"""Reads wrong bodies from the files crates/NAME/*/*.edit, and divides them into groups."""
import os
import re

from kit import PARTS

# The most in one group.
MOST = 40


class Edit:
    """A wrong body of a crate. It knows which functions it touches, and whether it changes more than bodies
    (`is_wide`)."""

    def __init__(self, items, file):
        self.items, self.name = items, os.path.basename(file)[:-len(".edit")]
        with open(file, encoding="utf-8") as it:
            self.text = it.read()
        self.changes, self.why_bad = [], None
        self.touched, self.lines, self.is_wide, self.is_of_constant = [], set(), False, False
        self.read_changes()
        if not self.why_bad:
            self.find_touched()
            if self.put({}) is None:
                self.why_bad = "the text after 'old:' does not occur exactly once in its file, or nothing is changed"
        named = re.findall(r"^caller: (\S+)$", self.text, re.M)
        # a function at which the prover refuses a wrong body that is tried alone, as the prover names it
        self.refused = re.findall(r"^refused: (\S+)$", self.text, re.M)
        self.callers = [it for it in items.all if it.is_function and (f"{it.owner}::{it.name}" if it.owner else it.name) in named]

    def paths(self):
        """Returns the paths by which a check of some functions takes those that it touches and its callers, or none if other functions
        may depend on its change."""
        paths = [it.path_of_check() for it in self.touched + self.callers]
        return paths if all(paths) and not self.is_wide else []

    def read_changes(self):
        path = old = None
        for line in self.text.split("\n"):
            if line.startswith("file: "):
                path = line[len("file: "):].strip()
                if os.path.normpath(path) != path or path.split("/")[0] not in PARTS or not os.path.isfile(f"{self.items.folder}/{path}"):
                    self.why_bad = f"there is no file {path} in src/, specs/ or proofs/"
            elif line.startswith("old: "):
                old = line[len("old: "):]
            elif line.startswith("new:"):
                if not path or not old:
                    self.why_bad = "a line 'new:' has no lines 'file:' and 'old:' before it"
                self.changes.append((path, old, line[len("new: "):]))
                old = None
        if not self.changes:
            self.why_bad = self.why_bad or "it has no lines 'old:' and 'new:'"

    def find_touched(self):
        now, items = dict(self.items.texts["src"]), self.items
        for path, old, new in self.changes:
            source = now.get(path)
            if source is None or source.count(old) != 1:
                # a definition or a proof, or a change that cannot be made
                self.is_wide = True
                continue
            # (one line for one line, so that all lines keep their numbers)
            now[path] = source.replace(old, new)
            line = source.count("\n", 0, source.find(old) + len(os.path.commonprefix([old, new])))
            self.lines.add((path, line))
            inside = [it for it in items.all if it.path == path and it.first <= line <= it.last]
            self.is_wide |= not inside
            for it in inside[-1:]:
                self.touch(it, line)
        # a function may make a constant or a table
        made = [user for it in self.touched for other in items.all if not other.is_function and it in items.called[other]
                for user in items.users(other)]
        self.touched = list(dict.fromkeys([*self.touched, *made]))

    def touch(self, item, line):
        if item.is_function and line > item.head:
            self.touched.append(item)
        elif item.is_function:
            # its contract
            self.is_wide = True
        else:
            users = self.items.users(item)
            self.touched, self.is_of_constant = self.touched + users, True
            self.is_wide |= not users or self.items.is_in_lemmas(item.name) or self.items.is_in_contracts(item.name)

    def put(self, texts):
        """Returns the texts with this change made, or None if it cannot be made in them."""
        made = dict(texts)
        for path, old, new in self.changes:
            if path not in made:
                with open(f"{self.items.folder}/{path}", encoding="utf-8") as it:
                    made[path] = it.read()
            if made[path].count(old) != 1 or old == new:
                return None
            made[path] = made[path].replace(old, new)
        return made


def clash(one, other):
    """Returns whether two wrong bodies touch the same function. A function and one that it calls may be changed in one
    group: the caller is proved with the contract of the other, and the prover says which of them is not proved."""
    return not set(one.touched).isdisjoint(other.touched)


def clash_or_call(one, other):
    """Returns whether two wrong bodies touch the same function, or one touches what a function of the other may
    call."""
    return clash(one, other) or any(
        it in mine.items.reach(that) for mine, its in ((one, other), (other, one)) for that in mine.touched for it in its.touched)


def groups_of(edits, apart=clash):
    """Returns few groups of wrong bodies, and those that are tried alone. No two of a group may clash. Those that clash
    with most others are put into groups first."""
    alone = [it for it in edits if it.is_wide or not it.touched]
    left = [it for it in edits if it not in alone]
    clashes = {it: sum(apart(it, other) for other in left if other is not it) for it in left}
    groups = []
    for it in sorted(left, key=lambda it: -clashes[it]):
        for group in groups:
            texts = it.put(group[1]) if len(group[0]) < MOST and not any(apart(it, other) for other in group[0]) else None
            if texts:
                group[0].append(it)
                group[1] = texts
                break
        else:
            groups.append([[it], it.put({})])
    groups = [group for group, _ in groups]
    return [it for it in groups if len(it) > 1], alone + [it[0] for it in groups if len(it) == 1]
