"""The functions of a crate's sources with their contracts, for scripts that list calls. Words are read, not types."""

import re
from functools import lru_cache
from typing import List, NamedTuple

from crate_list import CRATES, libraries

SOURCES = CRATES.parent / "crates"
USES = libraries()
# The head of a type's methods, with the trait's words before the type if they are a trait's, and that of a trait.
IMPL = re.compile(r"impl(?:<.*?>)? (.* for )?(\w+)")
TRAIT = re.compile(r"pub trait (\w+)")
FUNCTION = re.compile(r'( *)(pub )?(?:pub\(\w+\) )?(?:const |unsafe |extern "C" )*fn (\w+)')
CLAUSE = re.compile(r" *(requires|ensures)\b\*?(?: (\w+))? \{")
TYPE = re.compile(r"^pub (?:enum|struct|type) (\w+)([^;{]*(?:;|\{.*?^\}))", re.MULTILINE | re.DOTALL)
COMMENT = re.compile(r"(^|\s)//.*")
# What std and the lowest crate call it if memory runs out.
NO_MEMORY = {"NoMemory", "AllocError", "AllocFailed"}


class Clause(NamedTuple):
    kind: str
    name: str
    words: str


class Function(NamedTuple):
    """A function: its module, its type or "", its name, and whether another crate can call it. Its head is one line."""

    module: str
    holder: str
    name: str
    is_public: bool
    head: str
    clauses: List[Clause]

    def path(self, crate):
        return "::".join(filter(None, (crate, self.holder, self.name)))

    def premises(self):
        return [it.words for it in self.clauses if it.kind == "requires"]

    def returned(self):
        """Returns the type of the result, or "" if there is none."""
        rest = after_parameters(self.head[self.head.index(f"fn {self.name}") :])
        return rest[4:].rstrip(" {;") if rest.startswith(" -> ") else ""


def after_parameters(head):
    """Returns what stands behind a function's parameters."""
    depth = 0
    for i, letter in enumerate(head):
        depth += (letter == "(") - (letter == ")")
        if letter == ")" and not depth:
            return head[i + 1 :]
    return ""


def source_files(crate):
    return sorted((SOURCES / crate / "src").rglob("*.rt"))


@lru_cache(maxsize=None)
def text_of(file):
    """Returns a file's text without its comments."""
    return "\n".join(COMMENT.sub("", line) for line in file.read_text().splitlines())


def exports(crate):
    """Returns the names that a crate's lib.rt makes public, or None for a program, which has no lib.rt."""
    lib = SOURCES / crate / "src" / "lib.rt"
    if not lib.is_file():
        return None
    text = lib.read_text()
    own = re.findall(r"^pub (?:fn|struct|enum|trait|mod) (\w+)", text, re.MULTILINE)
    lists = re.findall(r"^pub use \w+::([^;]*);", text, re.MULTILINE)
    return {*own, *re.findall(r"\w+", " ".join(lists))}


def functions(crate):
    """Returns a crate's functions, in the order of its files.

    Another crate can call one if lib.rt exports the function, or its trait, or the type of a method that is `pub` or of
    a trait. A program exports nothing; there each `pub fn` counts.
    """
    names, found = exports(crate), []
    for file in source_files(crate):
        lines, trait, impl = file.read_text().splitlines(), None, None
        for i, line in enumerate(lines):
            if line.startswith("}"):
                trait = impl = None
            trait, impl = TRAIT.match(line) or trait, IMPL.match(line) or impl
            head = FUNCTION.match(line)
            if head:
                holder = trait[1] if trait else impl[2] if impl else ""
                is_exported = names is None or not names.isdisjoint({holder} if holder else {file.stem, head[3]})
                is_open = bool(head[2] or trait or impl and impl[1])
                parts = contract(lines[i:], head[1])
                found.append(Function(file.stem, holder, head[3], is_exported and is_open, *parts))
    return found


def public_calls(crate):
    """Returns the functions that a library gives to others; a program gives none."""
    return [it for it in functions(crate) if it.is_public] if exports(crate) is not None else []


def contract(lines, indent):
    """Returns the head of the function that these lines begin with, and its clauses."""
    head, texts = [], []
    for line in lines:
        line = COMMENT.sub("", line)
        if line.startswith(indent + "{"):
            break
        if CLAUSE.match(line):
            texts.append([])
        (texts[-1] if texts else head).append(line)
        if not texts and line.endswith(("{", "}", ";")):
            break
        if texts and line.endswith("};"):
            break
    heads = (CLAUSE.match(it[0]) for it in texts)
    words = (one_line(it).partition("{")[2].rpartition("}")[0].strip() for it in texts)
    return one_line(head), [Clause(it[1], it[2] or "", text) for it, text in zip(heads, words)]


def one_line(lines):
    return " ".join(" ".join(lines).split())


@lru_cache(maxsize=None)
def types_of(crate):
    """Returns a crate's public types, each with the words of its declaration."""
    text = "\n".join(text_of(file) for file in source_files(crate))
    return {name: set(re.findall(r"\w+", body)) for name, body in TYPE.findall(text)}


@lru_cache(maxsize=None)
def tells_memory(crate, name):
    """Whether a type that a crate names, or one within it, says that memory ran out."""
    left, seen = [(crate, name)], set()
    while left:
        user, word = left.pop()
        if word in NO_MEMORY:
            return True
        home = next((it for it in (user, *USES[user]) if word in types_of(it)), None)
        if home and (home, word) not in seen:
            seen.add((home, word))
            left += [(home, it) for it in types_of(home)[word]]
    return False


def arguments(generic):
    """Returns the arguments of a generic type."""
    found, depth = [""], 0
    for letter in generic[generic.index("<") + 1 : generic.rindex(">")]:
        depth += (letter in "<([") - (letter in ">)]")
        if letter == "," and not depth:
            found.append("")
        else:
            found[-1] += letter
    return found


def may_lack_memory(crate, call):
    """Whether a call's result has an error that may say that memory ran out."""
    result = call.returned()
    if not result.startswith("Result<"):
        return False
    return any(tells_memory(crate, it) for it in re.findall(r"\w+", arguments(result)[-1]))
