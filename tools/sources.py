"""What the scripts beside this one read: the definitions of crates/*/specs, the functions of crates/*/src with their
contracts, and the wrong bodies of crates/*/must-fail and crates/*/wrong."""
import pathlib
import re

TOP = pathlib.Path(__file__).resolve().parent.parent
CRATES = TOP / "crates"
SECTIONS = re.compile(r" ?\(ISO/IEC 18004:2015, (.*?)\)")
DEFINITION = re.compile(r"^(?:(?:abbrev|unfoldable) )?pub (?:record |data )?(\w+|◌\S+◌)(?!\w)", re.M)
NAME = re.compile(r"\w+|◌[^\s,◌]+◌")
ITEM = re.compile(r"^( *)(pub(?:\(crate\))? )?(?:const )?(?:extern \"C\" )?(fn|static|const) (\w+)")
OWNER = re.compile(r"^(?:pub(?:\(crate\))? )?(?:impl(?:<[^>]*>)?(?: \S+ for)?|trait|struct|enum) (\w+)")
OF_TRAIT = re.compile(r"^(?:pub trait|impl(?:<[^>]*>)? \S+ for) ")
IMPORT = re.compile(r"use Rattle\.(\w+)\.specs\.([\w.]+)\.\{([^}]*)\}")


def imported(text):
    return {word: (crate, file, word) for crate, file, words in IMPORT.findall(text) for word in NAME.findall(words)}


def cited(text, names):
    """Returns what a text names; an operator `◌+◌` is named by a `+` between spaces."""
    words = {*NAME.findall(text), *(f"◌{word}◌" for word in text.split())}
    return {names[word] for word in words if word in names}


def read_definitions(crate, path, definitions):
    """Adds a file's definitions: the rule, its sections ("" for [own], None for a private step), and what it cites."""
    file, text = ".".join(path.relative_to(CRATES / crate / "specs").with_suffix("").parts), path.read_text("utf-8")
    names = {**imported(text), **{word: (crate, file, word) for word in DEFINITION.findall(text)}}
    for paragraph in re.split(r"\n\s*\n", text):
        comment = " ".join(line[2:].strip() for line in paragraph.split("\n") if line.startswith("--"))
        body = "\n".join(line for line in paragraph.split("\n") if not line.startswith("--"))
        found = DEFINITION.match(re.sub(r"\Ainfix.*\n", "", body))
        if found:
            sections, key = SECTIONS.search(comment), (crate, file, found.group(1))
            own = "" if re.search(r"\[own\]\.?$", comment) else None
            where = sections.group(1).replace("[own]", "own") if sections else own
            rule = SECTIONS.sub("", comment).replace(" [own]", "").replace("|", "\\|").strip()
            file_shown, cites = path.relative_to(CRATES), cited(body, names) - {key}
            lines = sum(1 for line in body.split("\n") if line.strip() and not line.startswith("use "))
            definitions[key] = {"rule": rule, "where": where, "file": file_shown, "cites": cites, "lines": lines}


def doc_above(lines, i):
    """Returns the lines of the doc comment above an item, which may have attributes between the two."""
    first = i
    while first > 0 and lines[first - 1].strip() and not lines[first - 1].endswith("{"):
        first -= 1
    return [line.strip()[3:].strip() for line in lines[first:i] if line.strip().startswith("///")]


def read_functions(crate, path, functions):
    """Adds a file's functions, and its types with ghost members. For each it adds what the contract cites, and what of
    that is cited outside of `requires` ("keeps")."""
    text = path.read_text("utf-8").split("#[cfg(test)]")[0]
    names, lines, owner, of_trait, ghost = imported(text), text.split("\n"), None, False, {}

    def add(name, public, contract, body, doc):
        kept = re.sub(r"\brequires\b.*?(?=\bensures\b|$)", "", contract, flags=re.S)
        hidden = 0 if public == "pub " else 1 if public else 2
        functions.append({"crate": crate, "path": path, "name": name, "hidden": hidden, "law": path.stem == "laws", "of_trait": of_trait,
                          "cites": cited(contract, names), "keeps": cited(kept, names), "body": body,
                          "doc": doc, "ensures": bool(re.search(r"\b(ensures|ghost)\b", contract))})

    for i, line in enumerate(lines):
        owner = OWNER.match(line).group(1) if OWNER.match(line) else None if line == "}" else owner
        of_trait = owner is not None and (bool(OF_TRAIT.match(line)) if OWNER.match(line) else of_trait)
        if owner and re.match(r"    ghost (?!use)\w+(?: =|:)", line):
            end = next(j for j in range(i, len(lines)) if lines[j].endswith((";", ",")))
            ghost[owner] = ghost.get(owner, "") + "\n".join(lines[i:end + 1])
        item = ITEM.match(line)
        if item and item.group(3) == "fn":
            indent, public, _, name = item.groups()
            opens = next(j for j in range(i, len(lines)) if re.search(rf"( {{}}?|;|^{indent}{{}}?)$", lines[j]))
            closes = lines.index(indent + "}", opens) if lines[opens].endswith("{") else opens
            contract, body = "\n".join(lines[i:opens]), "\n".join(lines[opens:closes])
            add(f"{owner}::{name}" if owner else name, public, contract, body, doc_above(lines, i))
    for name, members in ghost.items():
        at, of_trait = [i for i, line in enumerate(lines) if re.match(rf"pub (struct|trait|enum) {name}\b", line)], False
        public = "pub " if at else ""
        add(name, public, members, "", doc_above(lines, at[0]) if at else [])


def edits_of(crate):
    """Returns the files of a crate's wrong bodies, those of must-fail/ first."""
    return [edit for folder in ("must-fail", "wrong") for edit in sorted((CRATES / crate / folder).glob("*.edit"))]


def section_order(where):
    """Returns the key by which sections are sorted: clauses by their numbers, and then annexes by their letters."""
    clause, annex = re.match(r"[\d.]+", where), re.match(r"Annex(?:es)? (\w)", where)
    return ([int(n) for n in clause.group(0).split(".")] if clause else [99, ord(annex.group(1))], where)


def crates():
    """Returns the names of the crates, in the order of crates.txt."""
    return re.findall(r"^(\w+)(?: staticlib)?:", (TOP / "crates.txt").read_text("utf-8"), re.M)


def read_definitions_of(crate, definitions):
    for path in sorted((CRATES / crate / "specs").rglob("*.antt")):
        read_definitions(crate, path, definitions)


def read_functions_of(crate, functions):
    for path in sorted((CRATES / crate / "src").rglob("*.rt")):
        read_functions(crate, path, functions)


def needed(cites, definitions):
    """Returns these definitions and all that they name, directly or through others."""
    keys, left = set(), [key for key in cites if key in definitions]
    while left:
        key = left.pop()
        if key not in keys:
            keys.add(key)
            left += [it for it in definitions[key]["cites"] if it in definitions]
    return keys


def public_contracts(functions):
    """Returns the public functions and those of traits, but no laws, which promise nothing of the code."""
    return [f for f in functions if (f["hidden"] == 0 or f["of_trait"]) and not f["law"]]


def outside_steps(definitions):
    """Returns all definitions but those of private steps."""
    return {key: it for key, it in definitions.items() if not key[1].startswith("Steps")}


def lines_of(keys, definitions):
    return sum(definitions[key]["lines"] for key in keys)
