"""Finds in the output of a check what the prover said of each wrong body."""
import os
import re

from items import by_colons

# What the prover says if a proof depends on something that is not proved. It shows nothing about the function itself.
RESTS = re.compile(r"was not admitted|which was rejected|is not proved\b.*\bcalls|waits for|wait for a callee")
# What the prover says if a proof names what a change took away. It shows nothing about the contract.
NAMES = re.compile(r"(?:\./)?(?:proofs|specs)/\S+: error: (?:`[^`]*`|\([^)]*\)|[^`.;(])*?\b(?:has no field `|has no `|is not in scope)")
# What the prover says if a stored proof is of a goal that has another name after the change, as after a changed
# condition. The goal that came in its place has no stored proof. That this goal is not proved shows nothing either,
# unless the prover knows that it is false.
RENAMED = re.compile(r"\S+: error: `[^`]*`: `goal\.[^`]*`: module `[^`]*` has no `")
IS_FALSE = "allow values at which this goal is false"
# What the prover says if a goal is refused, or a proof cannot be read.
REFUSES = re.compile(r"(?:\./)?(?:proofs|specs)/\S+:\d+:\d+: error|note: \S+?:\d+:\d+: (?:it is not proved that|`search` found no proof)")
# A verdict on a function that is about the function itself, and not only about what it calls.
ITSELF = re.compile(r"not proved$|not proved; (?!it (calls|waits))|no proof: (?!it calls)|could not tell")
VERDICT = re.compile(r"(fn|impl|struct|enum|trait|law|const|static) (\S+): (.*)")
# Limits that the prover sets itself, so that it meets them on each machine that checks the same.
LIMITS = re.compile(r"antt ran out of (stack|the (steps|memory) that)|(outgrew the memory limit|stopped at the step limit) \(")


def is_unread(line, changed):
    """Returns whether a line says that the prover could not read a text of src/ or specs/, or a changed file."""
    at = re.match(r"(?:\./)?(\S+?):\d+:\d+: error: (?:(`[^`]*`): )?(.*)", line)
    if not at or at[1] not in changed and not at[1].startswith(("src/", "specs/")):
        return False
    text = re.sub(r"`[^`]*`", "", at[3])
    return not at[2] or bool(re.search(r"is not in scope|has no field|is no name|operand is missing|expected the end|cannot continue", text))


def messages_of(lines):
    """Returns the messages of a check, each in one line: the prover breaks those that are long, and indents what follows."""
    found = []
    for line in lines:
        if line.startswith("  ") and found:
            found[-1] += " " + line.strip()
        else:
            found.append(line)
    return found


class Said:
    """The output of a check, and its status."""

    def __init__(self, status, output):
        self.status, self.output, self.lines = status, output, output.rstrip("\n").split("\n")
        self.messages = messages_of(self.lines)
        self.verdicts = {}
        for line in self.lines:
            of = VERDICT.match(line)
            if of and (of[1] == "fn" or of[2] not in self.verdicts):
                self.verdicts[of[2]] = of[3]

    def why_early(self, changed):
        """Returns the line that says why the check ended before it judged the changed bodies, or None."""
        bad = next((it for it in self.lines if is_unread(it, changed)), None)
        if bad or self.status != 1 or re.match(r"logic=not-proved|only=\d+ proved=\d+", self.lines[-1]):
            return bad
        return next((it for it in self.lines if re.search(r"\berror\[[\w-]+\]", it)), self.lines[-1])

    def places_of_errors(self):
        """Returns the files and lines (from 0) of src/ that have errors."""
        return {(it[1], int(it[2]) - 1) for it in re.finditer(r"(?m)^(?:\./)?(src/\S+?):(\d+):\d+: error", self.output)}

    def is_at_limit(self):
        return self.status == 3 and bool(LIMITS.search(self.output))

    def itself(self):
        """Returns the names of the functions that are refused, without those that are refused only because they call
        another one that is."""
        return [name for name, verdict in self.verdicts.items() if ITSELF.match(verdict)]


def names_of(crate, item, verdicts):
    """Returns the prover's names for a function of the crate and for its closures."""
    ours = []
    for module in item.modules:
        module = by_colons(module)
        start = f"{crate}::" + ("" if module in ("lib", "main") else f"{module}::")
        if not item.owner:
            ours += [it for it in verdicts if it == start + item.name]
        elif item.trait:
            ours += [it for it in verdicts if it.startswith(f"{start}{item.owner}{item.trait}") and it.endswith(f"::{item.name}")]
        else:
            ours += [it for it in verdicts if it == f"{start}{item.owner}::{item.name}"]
    ours = list(dict.fromkeys(ours))
    if len(ours) == 1:
        closures = "++".join(ours[0].split("::")[1:])
        ours += [it for it in verdicts if f"++{closures}+" in it or it.endswith(f"++{closures}")]
    return ours


def goals_refused(item, said):
    """Returns the messages that refuse goals of a function: errors in its proof, or notes in its lines that something is not
    proved."""
    found = []
    for message in said.messages:
        if RESTS.search(message):
            continue
        at = re.match(r"note: (?:\./)?(\S+?):(\d+):\d+: (it is not proved that|`search` found no proof)", message)
        is_here = at and at[1] == item.path and item.first <= int(at[2]) - 1 <= item.last
        proof = re.match(r"(?:\./)?proofs/(\S+)/\w+\.antt:\d+:\d+: error: ", message)
        if is_here or proof and proof[1] in item.places:
            found.append(message)
    return found


def at_goals(messages):
    """Returns those of a function's messages that refuse a goal, and not only a name."""
    renamed = any(map(RENAMED.match, messages))
    return [it for it in messages if not NAMES.match(it) and (not renamed or not it.startswith("note: ") or IS_FALSE in it)]


def refusal(crate, edit, said):
    """Returns whether a goal of a function of a wrong body is refused, and not only a name, with what is said of the function;
    or None if the function is not refused."""
    by_name = None
    for item in edit.touched + edit.callers:
        messages = goals_refused(item, said)
        for name in names_of(crate, item, said.verdicts) if messages else ():
            verdict = said.verdicts[name]
            if verdict != "proved" and not verdict.startswith("could not tell"):
                why = f"{name}: {re.split('[:;]', verdict)[0]}: {[*at_goals(messages), *messages][0][:160]}"
                if at_goals(messages):
                    return True, why
                by_name = by_name or (False, why)
    return by_name


def only_name(items, said):
    """Returns the first message of a name, if nothing else is refused anywhere."""
    of_functions = [goals_refused(it, said) for it in items.all if it.is_function]
    known = {message for messages in of_functions for message in messages}
    others = [it for it in said.messages if REFUSES.match(it) and not RESTS.search(it) and it not in known]
    if any(map(at_goals, of_functions)) or at_goals(others):
        return None
    return next((it for it in [*known, *others] if NAMES.match(it)), None)


def refused_beside(items, group, said):
    """Returns what is refused that no wrong body of the group touches."""
    touched = {it for edit in group for it in edit.touched + edit.callers}
    found = [it.places[-1] for it in items.all if it.is_function and it not in touched and goals_refused(it, said)]
    for line in said.lines:
        at = re.match(r"(?:\./)?((?:proofs|specs)/\S+?\.antt):\d+:\d+: error", line)
        if at and not RESTS.search(line) and not (at[1].startswith("proofs/") and items.is_of_function(at[1])):
            found.append(os.path.normpath(at[1]))
    return list(dict.fromkeys(found))
