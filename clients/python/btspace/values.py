"""Tuples and templates, as Python values.

A tuple is a Python tuple of int, str, bytes, bool, `Wide` and tuples. An int is a number of 64 bits; the wide numbers
of version 2 have 128. A template is a tuple whose fields are such values, formals (`INT` and the like) and templates.

To Python `True == 1`, so `(True,) == (1,)`. To a space they are two values of different kinds.
"""

from enum import Enum
from functools import total_ordering
from typing import Tuple, Union

__all__ = ["ANY", "BOOL", "BYTES", "INT", "TEXT", "TUPLE", "WIDE", "Wide"]
__all__ += ["Field", "Formal", "Template", "TupleValue", "Value"]


@total_ordering
class Wide:
    """A wide number: signed, of 128 bits. It equals no number of 64 bits, and only a space of version 2 takes it."""

    __slots__ = ("_number",)

    def __init__(self, number: int) -> None:
        if isinstance(number, bool) or not isinstance(number, int):
            raise TypeError(f"a wide number is made of an int, and not of {number!r}")
        if not -(1 << 127) <= number < 1 << 127:
            raise OverflowError(f"a wide number has 128 bits: {number}")
        self._number = number

    def __index__(self) -> int:
        return self._number

    __int__ = __index__

    def __eq__(self, other: object) -> bool:
        return self._number == other._number if isinstance(other, Wide) else NotImplemented

    def __lt__(self, other: "Wide") -> bool:
        return self._number < other._number if isinstance(other, Wide) else NotImplemented

    def __hash__(self) -> int:
        return hash((Wide, self._number))

    def __repr__(self) -> str:
        return f"Wide({self._number})"


class Formal(Enum):
    """A field of a template that is no value. Its value is its text in a line."""

    ANY = "*"
    INT = "?int"
    WIDE = "?wide"
    TEXT = "?text"
    BYTES = "?bytes"
    BOOL = "?bool"
    TUPLE = "?tuple"

    def __repr__(self) -> str:
        return self.name


ANY = Formal.ANY
"""Matches each value."""
INT = Formal.INT
"""Matches each number of 64 bits."""
WIDE = Formal.WIDE
"""Matches each wide number."""
TEXT = Formal.TEXT
"""Matches each text."""
BYTES = Formal.BYTES
"""Matches each byte string."""
BOOL = Formal.BOOL
"""Matches each truth value."""
TUPLE = Formal.TUPLE
"""Matches each nested tuple."""

Value = Union[int, str, bytes, bool, Wide, Tuple["Value", ...]]
TupleValue = Tuple[Value, ...]
Field = Union[int, str, bytes, bool, Wide, Formal, Tuple["Field", ...]]
Template = Tuple[Field, ...]
