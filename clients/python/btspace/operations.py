"""The operations of a space: the line that asks for each, and what its answer is to Python.

An operation is a value. `Space.perform` makes the call, and `aio.Space.perform` awaits it.
"""

from typing import Any, Callable, Generic, List, NamedTuple, Optional, Tuple, TypeVar

from .errors import BadAnswer, Full, NotAllowed
from .texts import NotATuple, read_tuple, read_tuples, template_text, tuple_text
from .values import Template, TupleValue

__all__ = ["MOST_MATCHES", "Operation", "cas", "in_all", "inp", "out", "rd_all", "rdp", "upgrade"]

MOST_MATCHES = 64

Answer = TypeVar("Answer")


class _Shape(NamedTuple):
    """The word that begins an answer, and what the rest of it says."""

    word: str
    read: Callable[[str], Any]


class Operation(Generic[Answer]):
    """One operation: its word, its arguments, and its line."""

    __slots__ = ("arguments", "line", "word", "_shapes")

    def __init__(self, word: str, arguments: Tuple[Template, ...], line: str, *shapes: _Shape) -> None:
        self.word = word
        self.arguments = arguments
        self.line = line
        self._shapes = shapes

    def answer(self, line: str) -> Answer:
        """What this line, the answer of the process, says. Full, NotAllowed and BadAnswer are raised."""
        word, _, rest = line.partition(" ")
        for shape in self._shapes:
            if shape.word == word:
                try:
                    return shape.read(rest)
                except ValueError:
                    break
        if line == "full":
            raise Full("the space is full")
        if line == "refused":
            raise NotAllowed(f"the space refuses {self.word} as this client's, or in its version")
        raise BadAnswer(f"no answer to {self.word}: {line[:100]!r}")

    def __repr__(self) -> str:
        return f"<{self.line}>"


def out(value: TupleValue) -> "Operation[None]":
    """Puts a tuple."""
    return Operation("out", (value,), f"out {tuple_text(value)}", _DONE)


def rdp(template: Template) -> "Operation[Optional[TupleValue]]":
    """Reads the oldest tuple that matches."""
    return Operation("rdp", (template,), f"rdp {template_text(template)}", _FOUND, _ABSENT)


def inp(template: Template) -> "Operation[Optional[TupleValue]]":
    """Takes the oldest tuple that matches."""
    return Operation("inp", (template,), f"inp {template_text(template)}", _FOUND, _ABSENT)


def cas(template: Template, value: TupleValue) -> "Operation[bool]":
    """Puts a tuple unless a tuple matches the template, and answers whether it was put."""
    return Operation("cas", (template, value), f"cas {template_text(template)} {tuple_text(value)}", _SWAPPED)


def rd_all(template: Template, most: int = MOST_MATCHES) -> "Operation[List[TupleValue]]":
    """Reads the oldest tuples that match."""
    return Operation("rdAll", (template,), f"rdAll {_most(most)} {template_text(template)}", _ALL)


def in_all(template: Template, most: int = MOST_MATCHES) -> "Operation[List[TupleValue]]":
    """Takes the oldest tuples that match, in a space of version 2."""
    return Operation("inAll", (template,), f"inAll {_most(most)} {template_text(template)}", _ALL)


def upgrade() -> "Operation[None]":
    """Makes the space one of version 2."""
    return Operation("upgrade", (), "upgrade", _DONE)


def _most(most: int) -> int:
    if not 1 <= most <= MOST_MATCHES:
        raise ValueError(f"from 1 to {MOST_MATCHES} matches may be asked for, and not {most}")
    return int(most)


def _nothing(rest: str) -> None:
    if rest:
        raise NotATuple(rest)


def _truth(rest: str) -> bool:
    if rest not in ("true", "false"):
        raise NotATuple(rest)
    return rest == "true"


def _counted(rest: str) -> List[TupleValue]:
    count, _, texts = rest.partition(" ")
    tuples = read_tuples(texts)
    if count != str(len(tuples)):
        raise NotATuple(rest)
    return tuples


_DONE = _Shape("done", _nothing)
_FOUND = _Shape("found", read_tuple)
_ABSENT = _Shape("absent", _nothing)
_SWAPPED = _Shape("swapped", _truth)
_ALL = _Shape("all", _counted)
