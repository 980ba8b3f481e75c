"""The grammar of docs/formats.md once more, written from that page alone and not from the package."""

import random
import re
from typing import Any, List, Tuple

from btspace import ANY, BOOL, BYTES, INT, TEXT, TUPLE, WIDE, Formal, Wide

FORMALS = {"?int": INT, "?wide": WIDE, "?text": TEXT, "?bytes": BYTES, "?bool": BOOL, "?tuple": TUPLE, "*": ANY}


def kind_of(value: Any) -> Formal:
    kinds = {int: INT, Wide: WIDE, str: TEXT, bytes: BYTES, bool: BOOL, tuple: TUPLE}
    return kinds[type(value)]


def same(left: Any, right: Any) -> bool:
    """Whether two values are equal to a space, to which a truth value is no number."""
    if type(left) is not type(right):
        return False
    if type(left) is tuple:
        return len(left) == len(right) and all(map(same, left, right))
    return left == right


def matches(template: Tuple[Any, ...], value: Tuple[Any, ...]) -> bool:
    return len(template) == len(value) and all(map(_field_matches, template, value))


def _field_matches(field: Any, value: Any) -> bool:
    if isinstance(field, Formal):
        return field is ANY or field is kind_of(value)
    if type(field) is tuple:
        return type(value) is tuple and matches(field, value)
    return same(field, value)


def plain_text(field: Any) -> str:
    """The text of a field, whatever its limits."""
    if type(field) is tuple:
        return "(" + " ".join(plain_text(it) for it in field) + ")"
    if type(field) is str:
        return '"' + "".join(_character(it) for it in field) + '"'
    if type(field) is bytes:
        return "x" + "".join(f"{it:02x}" for it in field)
    if isinstance(field, Formal):
        return next(text for text, it in FORMALS.items() if it is field)
    if type(field) is Wide:
        return f"w{field.__index__()}"
    return str(field).lower() if type(field) is bool else str(field)


def _character(it: str) -> str:
    if it in '"\\':
        return "\\" + it
    if it == "\n":
        return "\\n"
    return f"\\x{ord(it):02x}" if ord(it) < 0x20 else it


class Reader:
    """Reads a tuple or a template, by recursion, with as many blanks as the grammar allows."""

    def __init__(self, text: str) -> None:
        self.text = text
        self.place = 0

    def whole(self) -> Tuple[Any, ...]:
        found = self.items()
        assert self.place == len(self.text), self.text[self.place :]
        return found

    def items(self) -> Tuple[Any, ...]:
        self.expect("(")
        found: List[Any] = []
        while True:
            blanks = self.skip_blanks()
            if self.text[self.place] == ")":
                self.place += 1
                return tuple(found)
            assert not found or blanks, "a blank is wanted"
            found.append(self.item())

    def item(self) -> Any:
        if self.text[self.place] == "(":
            return self.items()
        if self.text[self.place] == '"':
            return self.quoted()
        start = self.place
        while self.text[self.place] not in " ()":
            self.place += 1
        return self.word(self.text[start : self.place])

    def word(self, word: str) -> Any:
        if word in FORMALS:
            return FORMALS[word]
        if word in ("true", "false"):
            return word == "true"
        if word[0] == "x":
            assert re.fullmatch("([0-9a-f]{2})*", word[1:])
            return bytes(int(word[at : at + 2], 16) for at in range(1, len(word), 2))
        digits = word[1:] if word[0] == "w" else word
        assert re.fullmatch("0|-?[1-9][0-9]*", digits), word
        bits = 128 if word[0] == "w" else 64
        assert -(2 ** (bits - 1)) <= int(digits) <= 2 ** (bits - 1) - 1
        return Wide(int(digits)) if word[0] == "w" else int(digits)

    def quoted(self) -> str:
        self.expect('"')
        found = ""
        while self.text[self.place] != '"':
            character = self.text[self.place]
            assert ord(character) >= 0x20
            self.place += 1
            found += self.escaped() if character == "\\" else character
        self.expect('"')
        return found

    def escaped(self) -> str:
        letter = self.text[self.place]
        self.place += 1
        if letter != "x":
            return {"n": "\n", '"': '"', "\\": "\\"}[letter]
        digits = self.text[self.place : self.place + 2]
        assert re.fullmatch("[01][0-9a-f]", digits) and digits != "0a"
        self.place += 2
        return chr(int(digits, 16))

    def expect(self, character: str) -> None:
        assert self.text[self.place] == character
        self.place += 1

    def skip_blanks(self) -> bool:
        start = self.place
        while self.text[self.place] == " ":
            self.place += 1
        return self.place > start


class Lot:
    """Random tuples and templates. Some of them go beyond the limits."""

    def __init__(self, seed: int) -> None:
        self.random = random.Random(seed)

    def tuple(self, level: int = 1) -> Tuple[Any, ...]:
        few = self.random.choice([0, 1, 2, 3, 4, 6])
        many = self.random.random() < 0.03
        return tuple(self.value(level) for _ in range(self.random.randint(28, 34) if many else few))

    def value(self, level: int) -> Any:
        lot = self.random.random()
        is_nested = lot < (0.17 if level < 4 else 0.25 if level < 7 else 0.54 if level < 9 else 0)
        if is_nested:
            return self.tuple(level + 1) if level < 4 else (self.value(level + 1),)
        return self.random.choice([self.number, self.wide, self.word, self.bytes, lambda: self.random.random() < 0.5])()

    def number(self) -> int:
        bits = self.random.choice([1, 3, 8, 31, 32, 62, 63])
        edges = [0, 1, -1, 2**63 - 1, -(2**63)]
        beyond = [2**63, -(2**63) - 1, 10**30]
        lot = self.random.random()
        common = [self.random.randint(-(2**bits), 2**bits - 1)]
        return self.random.choice(beyond if lot < 0.01 else edges if lot < 0.2 else common)

    def wide(self) -> Wide:
        return Wide(self.random.choice([0, 5, -7, 2**127 - 1, -(2**127), self.random.getrandbits(120)]))

    def length(self) -> int:
        return self.random.choice([0, 1, 2, 5, 5, 9, 30] + [300, 1019] * (self.random.random() < 0.05))

    def word(self) -> str:
        letters = 'ab "\\\n\r\t\x00\x1f\x7f\x85()*?#é\u2028\u20ac\ud7ff\ue000\uffff\U0001f600\U0010ffff'
        return "".join(self.random.choice(letters) for _ in range(self.length()))

    def bytes(self) -> bytes:
        return bytes(self.random.getrandbits(8) for _ in range(self.length()))

    def template_for(self, value: Tuple[Any, ...]) -> Tuple[Any, ...]:
        """A template that matches this tuple, or nearly."""
        fields = [self.field_for(it) for it in value]
        if self.random.random() < 0.05:
            fields.append(ANY)
        return tuple(fields)

    def field_for(self, value: Any) -> Any:
        lot = self.random.random()
        if lot < 0.2:
            return ANY
        if lot < 0.4:
            return kind_of(value)
        if lot < 0.45:
            return self.random.choice([*FORMALS.values()])
        if lot < 0.5:
            return self.value(8)
        return self.template_for(value) if type(value) is tuple else value
