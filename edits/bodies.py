"""Finds in which function's body an edit stands, and which edits can be tried by one check.

What the prover says of a function rests on its own body and on the contracts of others. So edits of the bodies of
different functions don't touch one another, and one check of these functions tells of each.
"""

import re
from typing import NamedTuple

FUNCTION = re.compile(r"( *)(?:pub(?:\([\w:]+\))? )?(?:const )?fn (\w+)")
INHERENT = re.compile(r"impl(?:<.*?>)? (\w+)(?:<.*>)? \{$")
# A line that names what the edit took away says little of the contract.
NAMES = re.compile(r"has no field|is not in scope|has no `|was not admitted")
SAID = re.compile(r"fn (\S+): (.*)")
NOTE = re.compile(r"(?:note: )?(?:\./)?((?:src|proofs)/\S+?):(\d+):\d+: (?!note: ).*")
# A check of some functions reads the proofs of all that they call: in `replica` it takes as long as four whole checks.
LEAST_BATCH = 5


class Place(NamedTuple):
    """A function by its file and its path below the crate, with the numbers of its first and last line."""

    file: str
    function: str
    first: int
    last: int


def changes_of(text):
    """Returns an edit's files with the old and new texts of each change."""
    found, file, old = [], None, None
    for line in text.decode().splitlines():
        word, _, rest = line.partition(":")
        rest = rest.removeprefix(" ")
        if word == "file":
            file = rest
        elif word == "old":
            old = rest
        elif word == "new":
            found.append((file, old, rest))
    return found


def body_of(lines, head, indent):
    """Returns the numbers of the lines between which the body of the function at a line stands, or None."""
    for begin in range(head, len(lines)):
        line = lines[begin]
        is_end_of_head = begin == head or line.startswith(f"{indent})")
        if line == f"{indent}{{" or is_end_of_head and line.endswith("{"):
            end = next((it for it in range(begin, len(lines)) if lines[it] == f"{indent}}}"), None)
            return end and (begin, end)
        if line == f"{indent}}}" or is_end_of_head and line.endswith("}"):
            return None
    return None


def type_above(lines, head):
    """Returns the type whose inherent methods a line is among, or None."""
    above = next((it for it in reversed(lines[:head]) if it.startswith(("impl", "}"))), "")
    found = INHERENT.match(above)
    return found[1] if found and " for " not in above else None


def home_of(holder, lines, names):
    """Returns the module in which a type of the file stands, by which the prover names its methods.

    One that the file takes in under another name is not it.
    """
    named = rf"\b{holder}\b(?! as )"
    taken = re.search(rf"^use crate::([\w:]+)::(?:\{{[^}}]*{named}|{named})", "\n".join(lines), re.MULTILINE)
    return taken[1].split("::") if taken else names


def function_at(file, lines, number):
    """Returns the place of the function in whose body a line stands, or None."""
    for head in range(number, -1, -1):
        found = FUNCTION.match(lines[head])
        if not found:
            continue
        body = body_of(lines, head, found[1])
        if not body or not body[0] < number < body[1]:
            return None
        names = [it for it in file.removeprefix("src/").removesuffix(".rt").split("/") if it not in ("lib", "main")]
        if found[1]:
            holder = type_above(lines, head)
            if not holder:
                return None
            names = [*home_of(holder, lines, names), holder]
        return Place(file, "::".join([*names, found[2]]), head + 1, body[1] + 1)
    return None


def place_of(folder, edit):
    """Returns the one function whose body an edit changes, or None where it changes anything else."""
    places = set()
    for file, old, _ in changes_of(edit.text):
        if not file.startswith("src/"):
            return None
        text = (folder / file).read_text()
        if text.count(old) != 1:
            return None
        number = text[: text.index(old)].count("\n")
        places.add(function_at(file, text.split("\n"), number))
    return places.pop() if len(places) == 1 else None


class Batch:
    """Edits of different functions, and the texts of the files with all of them."""

    def __init__(self, folder):
        self.folder, self.edits, self.texts = folder, {}, {}

    def take(self, edit, place):
        """Takes an edit unless the function has one, or the text that it changes is another's. Returns whether."""
        if place.function in {it.function for it in self.edits.values()}:
            return False
        texts = dict(self.texts)
        for file, old, new in changes_of(edit.text):
            text = texts.get(file) or (self.folder / file).read_text()
            if text.count(old) != 1:
                return False
            texts[file] = text.replace(old, new)
        self.texts = texts
        self.edits[edit] = place
        return True

    def functions(self):
        return [it.function for it in self.edits.values()]

    def refused(self, crate, said):
        """Returns, of each edit whose function has no proof by what a check with all of them said, a line that says so."""
        # A check that takes long says these words before what it found.
        lines = [it.removeprefix("so far: ") for it in said.splitlines()]
        functions = {it[1]: it[2] for it in map(SAID.fullmatch, lines) if it}
        notes = [it for it in map(NOTE.match, lines) if it and not NAMES.search(it[0])]
        found = {}
        for edit, place in self.edits.items():
            verdict = functions.get(f"{crate}::{place.function}", "")
            note = next((it for it in notes if is_about(it, place)), None)
            if verdict.startswith(("no proof", "not proved")) and note:
                found[edit] = note[0][:160]
        return found


def is_about(note, place):
    """Returns whether a note stands in a function, or in the files of its proof."""
    if note[1] == place.file:
        return place.first <= int(note[2]) <= place.last
    return note[1].startswith(f"proofs/{place.function.replace('::', '/')}/")


def batches_of(folder, edits):
    """Parts the edits that change one body alone into batches, if there are enough. Returns these, and the other edits."""
    batches, others = [], []
    for edit in edits:
        place = place_of(folder, edit)
        if not place:
            others.append(edit)
        elif not any(it.take(edit, place) for it in batches):
            batches.append(Batch(folder))
            if not batches[-1].take(edit, place):
                batches.pop()
                others.append(edit)
    large = [it for it in batches if len(it.edits) >= LEAST_BATCH]
    return large, others + [edit for it in batches if it not in large for edit in it.edits]
