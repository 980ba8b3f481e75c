"""Finds the files that a check of a crate reads: all its own, and of the crates below it those that they name.

A definition, a contract or a lemma of another crate is read only if a file names its module. So a change of any other
file changes no verdict. Where code calls a crate below, all of that crate's code counts, with what its contracts name.
"""

import re
from functools import lru_cache

MODULE = re.compile(r"\bRattle\.(\w+)\.(specs|proofs)\.([\w.+-]+)")
# Modules that the prover makes of code stand below these.
MADE = ("contracts", "declared")
PARTS = ("src", "specs", "proofs")


class Reach:
    """What the crates of a repository read of one another."""

    def __init__(self, top, uses):
        self.crates, self.uses = top / "crates", uses
        self.named_by = lru_cache(maxsize=None)(self.named)

    def files_of(self, name):
        """Returns the files that a check of the crate reads, in order."""
        own = {it for part in PARTS for it in (self.crates / name / part).rglob("*") if it.is_file()}
        found, left = set(), list(own)
        while left:
            file = left.pop()
            if file not in found:
                found.add(file)
                left += self.named_by(file)
        return sorted(found)

    def named(self, file):
        """Returns the files of the repository's crates that one names."""
        text = file.read_text()
        modules = (it.groups() for it in MODULE.finditer(text) if it[1] in self.uses)
        found = {self.file_of(crate, part, path.rstrip(".").split(".")) for crate, part, path in modules}
        if file.suffix == ".rt":
            below = self.uses[file.relative_to(self.crates).parts[0]]
            called = [it for it in below if re.search(rf"\b{it}::", text)]
            found |= {it for crate in called for it in (self.crates / crate / "src").rglob("*.rt")}
        return found

    def file_of(self, crate, part, names):
        """Returns the file in which a module stands, or the code that it is made of."""
        folder = self.crates / crate
        written = first_file(folder / part, names, ".antt")
        coded = first_file(folder / "src", [it for it in names if it not in MADE], ".rt")
        return written or coded or next(it for it in (folder / "src" / "lib.rt", folder / "src" / "main.rt") if it.is_file())


def first_file(folder, names, ending):
    """Returns the file of the longest beginning of these names that has one, or None."""
    places = (folder.joinpath(*names[:end]).with_name(names[end - 1] + ending) for end in range(len(names), 0, -1))
    return next((it for it in places if it.is_file()), None)
