"""What the script wrong_bodies has to know of the functions, constants and tables of a crate: the lines of each, its proof's
folder, and what it may call. Files have to be laid out as `rt fmt` does it."""
import glob
import os
import re

from kit import PARTS

ITEM = re.compile(r"^( *)(?:pub(?:\([a-z]+\))? )?(?:const )?(?:unsafe )?(?:extern \"C\" )?(fn|static|const) (\w+)")
OWNER = re.compile(r"^(?:pub(?:\([a-z]+\))? )?(impl(?:<.*?>)?(?: (\w+)(?:<.*>)? for)?|trait) (\w+)")
TYPE = re.compile(r"^(?:pub(?:\([a-z]+\))? )?(?:struct|enum|trait) (\w+)", re.M)
WORD = re.compile(r"((?:\b\w+(?:::<[^>]*>)?::)|\.)?\b([A-Za-z_]\w*)\b")


def by_colons(place):
    """Returns a path that has slashes as the prover writes it. The file `mod.rt` of a folder is no part of it."""
    return re.sub(r"/mod(?=/|$)", "", place).replace("/", "::")


class Item:
    """A function, a constant or a table. Its lines are those from `first` to `last`, and `head` is the line before its
    body."""

    def __init__(self, kind, name, path, lines, owner, trait, text):
        self.is_function, self.name, self.path, self.owner, self.trait = kind == "fn", name, path, owner, trait
        self.first, self.head, self.last = lines
        self.text, self.modules, self.places = text, [], []
        self.add_module(path[len("src/"):-len(".rt")])

    def add_module(self, module):
        """Adds a module in which the prover may say that the item is: a method may be in the module of its type, or in
        that of its own file."""
        parts = ("" if module in ("lib", "main") else module, (self.owner or "") + (self.trait or ""), self.name)
        self.modules = list(dict.fromkeys([*self.modules, module]))
        self.places = list(dict.fromkeys([*self.places, "/".join(it for it in parts if it)]))

    def path_of_check(self):
        """Returns the path by which a check of some functions takes this one: its own, or that of its module if it is of a trait,
        since the prover's name of such a function also has the trait's parameters. It is empty if there is none."""
        module = self.modules[-1]
        return by_colons(self.places[-1] if not self.trait else "" if module in ("lib", "main") else module)

    def body(self):
        """Returns the lines after its contract, without comments."""
        return re.sub(r"//.*", "", "\n".join(self.text.split("\n")[self.contract_lines():]))

    def contract(self):
        """Returns the lines from its name to the end of its contract."""
        return "\n".join(self.text.split("\n")[:self.contract_lines() or None])

    def contract_lines(self):
        """Returns how many lines the contract takes with the line of the name, or 0 if the item has no body after them."""
        lines = self.text.count("\n") + 1
        return lines - 1 - (self.last - self.head) + self.is_function if self.last > self.head else 0


def items_in(path, text):
    """Returns the items of one file of src/, without those of its tests."""
    lines, owner, trait, found = text.split("#[cfg(test)]")[0].split("\n"), None, None, []
    for i, line in enumerate(lines):
        of = OWNER.match(line)
        if of:
            owner, trait = of.group(3), of.group(2)
        elif line == "}":
            owner = trait = None
        item = ITEM.match(line)
        if not item:
            continue
        indent, kind, name = item.groups()
        head = i
        if kind == "fn":
            head = next((j for j in range(i, len(lines)) if re.search(rf"( {{}}?|;|^{indent}{{}}?)$", lines[j])), None)
            if head is None:
                continue
            last = lines.index(indent + "}", head) if lines[head].endswith("{") else head
        else:
            last = next(j for j in range(i, len(lines)) if lines[j].endswith(";"))
        first = i
        while first and lines[first - 1].lstrip().startswith("#["):
            first -= 1
        inside = (owner, trait) if indent else (None, None)
        found.append(Item(kind, name, path, (first, head, last), *inside, "\n".join(lines[i:last + 1])))
    return found


def texts_of(folder, part):
    """Returns the texts of a part of a crate by their paths."""
    found = {}
    for file in sorted(glob.glob(f"{folder}/{part}/**/*", recursive=True)):
        if os.path.isfile(file):
            with open(file, encoding="utf-8") as it:
                found[os.path.relpath(file, folder)] = it.read()
    return found


class Items:
    """The texts of a crate, and the items of its sources."""

    def __init__(self, folder):
        self.folder = folder
        self.texts = {part: texts_of(folder, part) for part in PARTS}
        sources = {path: text for path, text in self.texts["src"].items() if path.endswith(".rt")}
        self.all = [it for path, text in sources.items() for it in items_in(path, text)]
        types = {name: path[len("src/"):-len(".rt")] for path, text in sources.items() for name in TYPE.findall(text)}
        self.by_name = {}
        for it in self.all:
            if it.owner in types:
                it.add_module(types[it.owner])
            self.by_name.setdefault(it.name, []).append(it)
        self.places = {place for it in self.all for place in it.places}
        self.called = {it: self.named_by(it) for it in self.all}
        self.reached = {}

    def named_by(self, item):
        """Returns what the body of an item may call or name, or what its proof cites. A method that is called may be
        the one of each type that has a method of this name."""
        body, found = item.body(), []
        for before, word in WORD.findall(body):
            of = before.rstrip(":").split("::")[0]
            found += [it for it in self.by_name.get(word, ()) if is_meant(it, item, before, of)]
        if re.search(r"\b(write|print|println|format|writeln)!", body):
            found += self.by_name.get("fmt", ())
        for path, proof in self.texts["proofs"].items():
            if path.startswith(tuple(f"proofs/{it}/" for it in item.places)):
                found += [it for word in re.findall(r"(\w+)\.Met\b", proof) for it in self.by_name.get(word, ())]
        return [it for it in dict.fromkeys(found) if it is not item]

    def reach(self, item):
        """Returns the item and all that it may call or name, also through others."""
        if item not in self.reached:
            seen, left = set(), [item]
            while left:
                it = left.pop()
                if it not in seen:
                    seen.add(it)
                    left += self.called[it]
            self.reached[item] = seen
        return self.reached[item]

    def users(self, item):
        """Returns the functions that name a constant or a table, also through other constants and tables."""
        return [it for it in self.all if it.is_function and any(
            other is item or not other.is_function and item in self.reach(other) for other in self.called[it])]

    def is_of_function(self, path):
        """Returns whether a file of proofs/ is of the proof of one function."""
        return os.path.dirname(path)[len("proofs/"):] in self.places

    def is_in_contracts(self, name):
        """Returns whether the contract of a function names this item, so that a change of the item affects more than
        bodies."""
        return any(re.search(rf"\b{name}\b", it.contract()) for it in self.all if it.is_function)

    def is_in_lemmas(self, name):
        """Returns whether a definition or a lemma names this item, so that a change of the item affects more than
        bodies."""
        texts = [*self.texts["specs"].items(), *(it for it in self.texts["proofs"].items() if not self.is_of_function(it[0]))]
        return any(re.search(rf"\b{name}\b", text) for _, text in texts)


def is_meant(named, user, before, of):
    """Returns whether a word, with what comes before it, may mean the item of this name."""
    if before == ".":
        return named.owner is not None and named.is_function
    if of == "Self":
        return named.owner == user.owner
    if of[:1].isupper():
        return of in (named.owner, named.trait)
    return named.owner is None
