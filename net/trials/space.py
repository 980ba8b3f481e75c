"""A tuple space of version 1 as docs/formats.md has it, for the values and operations of these tests.

Tuples are Python's, of numbers and texts. A template's field is a value, or one of the words ANY, INT and TEXT. A
space is a tuple of tuples, the oldest first.
"""

from typing import NamedTuple

# The most tuples of a space of version 1.
LIMIT = 8192


class Formal(NamedTuple):
    """A field that each value matches, or each of a kind."""

    written: str
    kind: type


ANY, INT, TEXT = Formal("*", object), Formal("?int", int), Formal("?text", str)


class Op(NamedTuple):
    """An operation: its name, how many matches it wants at most (rdAll), its template, and its tuple."""

    name: str
    most: int = 1
    template: tuple = ()
    values: tuple = ()

    def line(self):
        words = [self.name]
        if self.name == "rdAll":
            words.append(str(self.most))
        if self.name != "out":
            words.append(written(self.template))
        if self.name in ("out", "cas"):
            words.append(written(self.values))
        return " ".join(words)


def out(*values):
    return Op("out", values=values)


def rdp(*fields):
    return Op("rdp", template=fields)


def inp(*fields):
    return Op("inp", template=fields)


def cas(template, values):
    return Op("cas", template=template, values=values)


def rd_all(most, *fields):
    return Op("rdAll", most, fields)


def written(fields):
    """The text of a tuple or a template. Texts have no characters here that are escaped."""
    words = (f'"{it}"' if isinstance(it, str) else it.written if isinstance(it, Formal) else str(it) for it in fields)
    return f"({' '.join(words)})"


def matches(template, values):
    return len(template) == len(values) and all(
        isinstance(value, field.kind) if isinstance(field, Formal) else type(field) is type(value) and field == value
        for field, value in zip(template, values)
    )


def apply(space, op):
    """The result line of an operation, and the space behind it."""
    places = [place for place, it in enumerate(space) if matches(op.template, it)]
    if op.name == "out" or (op.name == "cas" and not places):
        if len(space) >= LIMIT:
            return "full", space
        return ("done" if op.name == "out" else "swapped true"), space + (op.values,)
    if op.name == "cas":
        return "swapped false", space
    if op.name == "rdAll":
        found = [written(space[it]) for it in places[: op.most]]
        return " ".join(["all", str(len(found)), *found]), space
    if not places:
        return "absent", space
    oldest = places[0]
    left = space if op.name == "rdp" else space[:oldest] + space[oldest + 1 :]
    return f"found {written(space[oldest])}", left
