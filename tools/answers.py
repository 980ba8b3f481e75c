"""Answers words of ./btspace that ask for help or are wrong as the program answers them, where it isn't built.

use, as by ./btspace: tools/answers.py PROGRAM WORD..     goes on as tools/build where the words have to run

crates/command_tests/src/answers has words with the program's answers, which a test there holds equal to those of
command_line. Each answers all words of its shape: they are wrong in the same way, and their answer names another word in the
place of the one in brackets. To words of no shape there nothing is answered here, so they get the program's own answer.
"""

import os
import re
import sys
from pathlib import Path
from typing import NamedTuple

ANSWERS = Path(__file__).resolve().parent.parent / "crates" / "command_tests" / "src" / "answers"
# Words stand behind it, and what is answered on the lines below. Several may have one answer.
PROMPT = "$ btspace"
TABLE = re.compile(r'r#"(.*)"#', re.DOTALL)
OPTION = re.compile(r" +(?:-(\w), )?--([\w-]+)(?: <([^>]+)>)? +(.*)")
FILE = re.compile(r"  <(\w+)> +(.*)")
COMMAND = re.compile(r"  (\w+) +(.*)")
VALUES = re.compile(r"\[possible values: (.*?)\]")
# clap tells of a name that is closer to a word than this.
CLOSE = 0.7


class Row(NamedTuple):
    """Words, what of them the answer names, and the answer."""

    words: list
    named: str
    text: str


class Answer(NamedTuple):
    """What the program writes. What tells of a mistake begins so, and goes to standard error."""

    text: str

    @property
    def is_mistake(self):
        return self.text.startswith("error: ")

    @property
    def stream(self):
        return 2 if self.is_mistake else 1

    @property
    def status(self):
        return 2 if self.is_mistake else 0


class Option(NamedTuple):
    """An option: the name of its value and the values that it takes, if it says so, and its help."""

    short: str
    value: str
    values: list
    about: str


class Command(NamedTuple):
    """A command as its help has it: its line of usage, options and files by their names, and what stands behind them."""

    about: str
    usage: str
    options: dict
    files: dict
    notes: str


class Unknown(Exception):
    """The answer to these words isn't known here."""


def read_rows():
    return [row for file in sorted(ANSWERS.glob("*.rt")) for row in rows_of_table(TABLE.search(file.read_text())[1])]


def rows_of_table(table):
    rows, text = [], ""
    for piece in reversed(table.split(PROMPT)[1:]):
        words, _, own = piece.partition("\n")
        text = own or text
        named = re.search(r"\[(.*)\]", words)
        rows.append(Row(words.replace("[", "").replace("]", "").split(), named[1] if named else "", text))
    return rows[::-1]


def section(text, title, form):
    """What the lines of a help text under a title say, which are of one form."""
    lines = text.partition(f"\n{title}:\n")[2].partition("\n\n")[0].splitlines()
    return [it.groups() for it in map(form.match, lines) if it]


def command_of(text):
    """Reads a command's help."""
    options = {}
    for short, name, value, about in section(text, "Options", OPTION):
        values = VALUES.search(about)
        options[name] = Option(short, value, values[1].split(", ") if values else [], about)
    usage = re.search(r"^Usage: (.*)", text, re.MULTILINE)[1]
    notes = text.partition("\nOptions:\n")[2].partition("\n\n")[2]
    return Command(text.partition("\n")[0], usage, options, dict(section(text, "Arguments", FILE)), notes)


def jaro(one, other):
    """The similarity of Jaro (JASA 1989), as strsim computes it."""
    if one == other:
        return 1.0
    reach = max(len(one), len(other), 2) // 2 - 1
    taken, matched = [False] * len(other), []
    for i, letter in enumerate(one):
        for j in range(max(0, i - reach), min(len(other), i + reach + 1)):
            if other[j] == letter and not taken[j]:
                taken[j] = True
                matched.append(letter)
                break
    if not matched:
        return 0.0
    others = [letter for letter, is_taken in zip(other, taken) if is_taken]
    turned = sum(a != b for a, b in zip(matched, others)) // 2
    count = len(matched)
    return (count / len(one) + count / len(other) + (count - turned) / count) / 3.0


def close_names(word, names):
    """The names that clap takes for close to a word, the closest last. Of two that are as close it isn't told here."""
    found = sorted((score, it) for it in names if (score := jaro(word, it)) > CLOSE)
    if len(found) != len({score for score, _ in found}):
        raise Unknown
    return [it for _, it in found]


def closest(word, names):
    return "".join(close_names(word, names)[-1:])


class Walk:
    """The words behind a command, read one after another until one is wrong."""

    def __init__(self, name, command, words):
        self.name, self.command, self.left, self.used, self.files = name, command, [*words], [], 0

    def shape(self):
        while self.left:
            found = self.take(self.left.pop(0))
            if found:
                return found
        return (self.name, "end", *self.used, self.files), ""

    def take(self, word):
        """Takes a word, and returns the shape if the word decides."""
        if word == "--":
            return next(filter(None, map(self.take_file, self.drain())), None)
        if word.startswith("--"):
            return self.take_long(*word[2:].partition("="))
        if word.startswith("-") and len(word) > 1:
            return shape_of_flag((self.name,), self.command, word)
        return self.take_file(word)

    def drain(self):
        while self.left:
            yield self.left.pop(0)

    def take_file(self, word):
        self.files += 1
        return ((self.name, "spare"), word) if self.files > len(self.command.files) else None

    def take_long(self, name, equals, value):
        option = self.command.options.get(name)
        if not option:
            return self.unknown(name)
        if option.value:
            return self.take_value(name, option, value if equals else None)
        if equals:
            return shape_of_value((self.name, *self.used), name, value)
        return ((self.name, "shown", name), "") if name == "help" else self.use(name)

    def unknown(self, name):
        """The answer names the options that were used, or says that there are options if nothing was used.

        It names a close one last. So where that is the last one used, it is the answer without that use.
        """
        close = closest(name, self.command.options)
        used = self.used[:-1] if close in self.used[-1:] else self.used
        if close in used:
            raise Unknown
        is_first = not self.used and not self.files and not close
        return (self.name, "option", close, is_first, *used), f"--{name}"

    def take_value(self, name, option, value):
        if value is None:
            if not self.left:
                return (self.name, "no value", name), ""
            value = self.left.pop(0)
        if not value or value.startswith("-") or not option.values:
            raise Unknown
        if name in self.used or value not in option.values:
            # If another option follows, its fault may come first.
            if self.left and self.left[0].startswith("-"):
                raise Unknown
        if name not in self.used and value not in option.values:
            return (self.name, "value", name, closest(value, option.values)), value
        return self.use(name)

    def use(self, name):
        if name in self.used:
            return (self.name, "twice", name), ""
        self.used.append(name)
        return None


def shape_of_flag(of, command, word):
    """That of a word with one hyphen. Help and the version are shown at once, whatever else it asks for."""
    known = {it.short: name for name, it in command.options.items() if it.short}
    name = known.get(word[1])
    if not name:
        return (*of, "flag"), word[:2]
    if name not in ("help", "version"):
        raise Unknown
    return (*of, "shown", name), ""


def shape_of_value(of, name, value):
    """That of an option that takes no value and has one."""
    if not value or name in of:
        raise Unknown
    return (*of, "value", name), value


class Table:
    """The answers that are known."""

    def __init__(self, rows):
        self.rows = rows
        self.texts = {tuple(it.words): it.text for it in rows}
        self.whole = command_of(self.texts["--help",])
        self.abouts = dict(section(self.texts["--help",], "Commands", COMMAND))
        self.names = [*self.abouts]
        # `help` has no help of its own.
        self.commands = {it: command_of(self.texts[it, "--help"]) for it in self.names if it != "help"}
        self.by_shape = {}
        for row in rows:
            self.by_shape.setdefault(self.shape(row.words)[0], row)

    def answer(self, words):
        """Returns the program's answer, or None where words have to run or their answer isn't known here."""
        if not all(it.isprintable() for it in words):
            return None
        try:
            shape, named = self.shape(words)
        except Unknown:
            return None
        row = self.by_shape.get(shape)
        if not row:
            return None
        return Answer(row.text.replace(row.named, named) if row.named else row.text)

    def row_of(self, words):
        return self.by_shape[self.shape(words)[0]]

    def shape(self, words):
        """Returns in which way words are wrong, or what they ask for, and the word that the answer names.

        Words of one shape have one answer, but for that word.
        """
        if not words:
            return ("nothing",), ""
        first, *rest = words
        if first == "help" and "help" in self.names:
            return self.shape_of_help(rest)
        if first in self.commands:
            return Walk(first, self.commands[first], rest).shape()
        if first == "--":
            return self.shape_behind_hyphens(*rest[:1])
        if first.startswith("--"):
            return self.shape_of_option(*first[2:].partition("="), rest)
        if first.startswith("-") and len(first) > 1:
            return shape_of_flag((), self.whole, first)
        return ("command", *close_names(first, self.names)), first

    def shape_behind_hyphens(self, word=None):
        """That of the word behind `--`, which can't be a command any more."""
        if word is None:
            return ("nothing",), ""
        if word in self.names:
            return ("behind hyphens", word), ""
        return ("command", *close_names(word, self.names)), word

    def shape_of_help(self, rest):
        if len(rest) > 1 or rest == ["help"]:
            raise Unknown
        if not rest or rest[0] in self.commands:
            return ("help", *rest), ""
        return ("help", "of none"), rest[0]

    def shape_of_option(self, name, equals, value, rest):
        """That of a long option in front of the command. One of a command that stands behind it gets a tip."""
        if name in self.whole.options:
            return shape_of_value((), name, value) if equals else (("shown", name), "")
        close = closest(name, self.whole.options)
        if close:
            return ("option", close), f"--{name}"
        of_commands = {it: closest(name, command.options) for it, command in self.commands.items()}
        behind = next((it for it in rest if of_commands.get(it)), "")
        return ("option of", behind, of_commands.get(behind)), f"--{name}"


def read_table():
    return Table(read_rows())


def give(words):
    """Writes the program's answer to these words, and returns its status; or returns None where it isn't known here."""
    answer = read_table().answer(words)
    if not answer:
        return None
    left = answer.text.encode()
    try:
        while left:
            left = left[os.write(answer.stream, left) :]
    except OSError:
        return 3
    return answer.status


def main(program, *words):
    status = give(words)
    if status is None:
        build = Path(__file__).resolve().parent / "build"
        os.execv(build, [build, program, *words])
    return status


if __name__ == "__main__":
    sys.exit(main(*sys.argv[1:]))
