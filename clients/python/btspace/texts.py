"""The texts of tuples and templates, by the grammar of docs/formats.md ("Texts").

`tuple_text` and `template_text` judge what they write from left to right, as the program judges a line. So what the
program would refuse is refused here, by the same number, and never sent. `read_tuple` reads exactly the texts that the
program writes.
"""

import re
from typing import List, Match

from .errors import BadByte, Refused, TooDeep, TooLong, TooManyFields
from .values import Field, Formal, Template, TupleValue, Value, Wide

__all__ = ["NotATuple", "read_tuple", "read_tuples", "template_text", "tuple_text"]

MOST_FIELDS = 32
MOST_LEVELS = 8
MOST_BYTES = 1024

_ESCAPED = re.compile(r'["\\\x00-\x1f]')
_SHORT_ESCAPES = {'"': '\\"', "\\": "\\\\", "\n": "\\n"}


def tuple_text(value: TupleValue) -> str:
    """The text of a tuple, or an exception `Refused` by the first fault from the left. No tuple: TypeError."""
    return _Writer(takes_formals=False).argument(value)


def template_text(template: Template) -> str:
    """The same of a template."""
    return _Writer(takes_formals=True).argument(template)


class _Writer:
    """Writes one argument, and counts the bytes of its encoding."""

    def __init__(self, takes_formals: bool) -> None:
        self._takes_formals = takes_formals
        self._bytes = 0

    def argument(self, fields: Template) -> str:
        if not isinstance(fields, tuple):
            raise TypeError(f"a tuple is wanted, and not {fields!r}")
        text = self._items(fields, 1)
        if self._bytes > MOST_BYTES:
            raise TooLong(f"an encoding of {self._bytes} bytes; at most {MOST_BYTES} are taken")
        return text

    def _items(self, fields: Template, level: int) -> str:
        if level > MOST_LEVELS:
            raise TooDeep(f"more than {MOST_LEVELS} levels")
        self._bytes += 1
        texts = []
        for place, field in enumerate(fields):
            # The program sees the parenthesis of a ninth level before it sees that the item is one too many.
            if place == MOST_FIELDS and not (isinstance(field, tuple) and level == MOST_LEVELS):
                raise TooManyFields(f"more than {MOST_FIELDS} fields")
            texts.append(self._field(field, level))
        return f"({' '.join(texts)})"

    def _field(self, field: Field, level: int) -> str:
        self._bytes += 1
        if isinstance(field, tuple):
            return self._items(field, level + 1)
        if isinstance(field, bool):
            self._bytes += 1
            return "true" if field else "false"
        if isinstance(field, int):
            self._bytes += 8
            return _number_text(field)
        if isinstance(field, str):
            self._bytes += 2 + len(_utf_8(field))
            return f'"{_ESCAPED.sub(_escape, field)}"'
        if isinstance(field, bytes):
            self._bytes += 2 + len(field)
            return f"x{field.hex()}"
        if isinstance(field, Wide):
            self._bytes += 16
            return f"w{int(field)}"
        if isinstance(field, Formal) and self._takes_formals:
            return field.value
        raise TypeError(f"no {'field of a template' if self._takes_formals else 'value of a tuple'}: {field!r}")


def _number_text(number: int) -> str:
    if not -(1 << 63) <= number < 1 << 63:
        raise BadByte("an int has 64 bits here; Wide(..) has 128")
    # An int of a class of its own, as an IntEnum, may have another text.
    return int.__repr__(number)


def _utf_8(text: str) -> bytes:
    try:
        return text.encode()
    except UnicodeEncodeError as fault:
        raise BadByte(f"a text has half a surrogate pair: {fault}") from None


def _escape(found: Match[str]) -> str:
    character = found[0]
    return _SHORT_ESCAPES.get(character) or f"\\x{ord(character):02x}"


class NotATuple(ValueError):
    """A text that the program doesn't write for any tuple."""


_TOKEN = re.compile(
    r"""[ ]* (?:
        (?P<open> \( )
      | (?P<close> \) )
      | (?P<wide> w )? (?P<number> -?[0-9]+ )
      | " (?P<text> (?: [^"\\] | \\["\\n] | \\x[01][0-9a-f] )* ) "
      | x (?P<bytes> (?: [0-9a-f]{2} )* )
      | (?P<truth> true | false )
    )""",
    re.VERBOSE,
)
_WRITTEN_ESCAPE = re.compile(r"\\(?:x(..)|(.))")


def read_tuple(text: str) -> TupleValue:
    """The tuple with exactly this text, as the program writes it. Else NotATuple."""
    tuples = read_tuples(text)
    if len(tuples) != 1:
        raise NotATuple(text)
    return tuples[0]


def read_tuples(text: str) -> List[TupleValue]:
    """The tuples of a text that has one blank between two of them."""
    # Each tuple has one text. So whatever was read is right if it has this one.
    try:
        tuples = _tuples_in(text)
        is_written = " ".join(map(tuple_text, tuples)) == text
    except (TypeError, ValueError, OverflowError, Refused) as fault:
        raise NotATuple(text) from fault
    if not is_written:
        raise NotATuple(text)
    return tuples


def _tuples_in(text: str) -> List[TupleValue]:
    # The lists that are open, the innermost last. The first one is the text's own.
    lists: List[List[Value]] = [[]]
    place = 0
    while place < len(text):
        token = _TOKEN.match(text, place)
        if token is None:
            raise NotATuple(text)
        place = token.end()
        if token["open"]:
            lists.append([])
        elif not token["close"]:
            lists[-1].append(_value(token))
        elif len(lists) > 1:
            inner = lists.pop()
            lists[-1].append(tuple(inner))
    if len(lists) != 1:
        raise NotATuple(text)
    # What isn't a tuple is found when it is written again.
    return lists[0]  # type: ignore[return-value]


def _value(token: Match[str]) -> Value:
    if token["number"] is not None:
        number = int(token["number"])
        return Wide(number) if token["wide"] else number
    if token["text"] is not None:
        return _WRITTEN_ESCAPE.sub(_unescape, token["text"])
    if token["bytes"] is not None:
        return bytes.fromhex(token["bytes"])
    return token["truth"] == "true"


def _unescape(found: Match[str]) -> str:
    if found[1]:
        return chr(int(found[1], 16))
    return "\n" if found[2] == "n" else found[2]
