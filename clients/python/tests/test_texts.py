"""Texts of tuples and templates: as the program has them, and as the grammar has them."""

import random
import subprocess
import unittest
from concurrent.futures import Future
from typing import Any, Iterator, List, Optional, Tuple, Union

import btspace
from btspace import Refused
from btspace.conversation import Conversation, one_line
from btspace.texts import NotATuple, read_tuple, template_text, tuple_text

from .grammar import Lot, Reader, matches, plain_text, same
from .support import PROGRAM

CASES = 10_000
# What is put into a tuple's text, so that it may be none.
PUT = ["", " ", "(", ")", "0", "-", "w", "x", "a", "0a", '"', "\\", "\\x0a", "\\x1F", "true", "*"]


def judged(write: Any, value: Any) -> Tuple[Optional[str], Optional[int]]:
    """The text that the package writes, or the number of its refusal."""
    try:
        return write(value), None
    except Refused as refused:
        return None, refused.number


def asked(lines: List[str]) -> Iterator[Union[str, int]]:
    """The program's answers to these lines, or the numbers of its refusals, from a space of version 2."""
    command = [*PROGRAM, "local", "--keep-going", "--space", "2", "-"]
    text = b"".join(map(one_line, lines))
    run = subprocess.run(command, input=text, stdout=subprocess.PIPE, stderr=subprocess.STDOUT, timeout=60)
    conversation = Conversation()
    answers = [Future() for _ in lines]
    conversation.waiting.extend(answers)
    for line in run.stdout.splitlines(keepends=True):
        conversation.hear(line)
    for answer in answers:
        error = answer.exception(0)
        yield error.number if isinstance(error, Refused) else answer.result(0)


class RoundTrips(unittest.TestCase):
    def test_tuples(self):
        """The program and the package write one text of a tuple, or refuse it by one number."""
        lot = Lot(1)
        tuples = [lot.tuple() for _ in range(CASES)]
        refused = 0
        lines = [line for it in tuples for line in (f"out {plain_text(it)}", f"inp {plain_text(it)}")]
        answers = asked(lines)
        for value, done, found in zip(tuples, answers, answers):
            text, number = judged(tuple_text, value)
            if number is not None:
                refused += 1
                self.assertEqual((number, number), (done, found), value)
                continue
            self.assertEqual(("done", f"found {text}"), (done, found))
            self.assertTrue(same(read_tuple(text), value), text)
            self.assertTrue(same(Reader(text).whole(), value), text)
        # Most of them are taken, but the limits are met too.
        self.assertGreater(refused, CASES // 100)
        self.assertLess(refused, CASES // 5)

    def test_templates(self):
        """A template's text means to the program what the template says."""
        lot = Lot(2)
        pairs = []
        while len(pairs) < CASES:
            value = lot.tuple()
            template = lot.template_for(value)
            if judged(tuple_text, value)[0] and judged(template_text, template)[0]:
                pairs.append((template, value))
        found_some = 0
        lines = []
        for template, value in pairs:
            of_template, of_value = template_text(template), tuple_text(value)
            self.assertTrue(same(Reader(of_template).whole(), template), of_template)
            lines += [f"out {of_value}", f"rdp {of_template}", f"inp {of_value}"]
        answers = asked(lines)
        for (template, value), done, found, taken in zip(pairs, answers, answers, answers):
            is_found = matches(template, value)
            found_some += is_found
            self.assertEqual(("done", taken if is_found else "absent"), (done, found), (template, value))
        self.assertTrue(CASES // 3 < found_some < CASES * 9 // 10, found_some)

    def test_templates_beyond_the_limits(self):
        """A template is refused by the number that the program has for it."""
        lot = Lot(3)
        templates = [lot.template_for(lot.tuple()) for _ in range(CASES // 4)]
        answers = asked([f"rdp {plain_text(it)}" for it in templates])
        for template, answer in zip(templates, answers):
            text, number = judged(template_text, template)
            self.assertEqual("absent" if number is None else number, answer, template)

    def test_other_texts(self):
        """What the program wouldn't write is no tuple."""
        lot, chance = Lot(4), random.Random(5)
        texts = []
        while len(texts) < CASES // 2:
            text = judged(tuple_text, lot.tuple())[0]
            if text is not None:
                place = chance.randrange(len(text))
                put = chance.choice(PUT)
                texts.append(text[:place] + put + text[place + chance.randrange(3) :])
        taken = 0
        lines = [line for it in texts for line in (f"out {it}", f"inp {it}")]
        answers = asked(lines)
        for text, _, found in zip(texts, answers, answers):
            is_written = found == f"found {text}"
            taken += is_written
            if is_written:
                self.assertEqual(text, tuple_text(read_tuple(text)))
            else:
                self.assertRaises(NotATuple, read_tuple, text)
        self.assertGreater(taken, 100)


class Limits(unittest.TestCase):
    def test_what_is_just_taken(self):
        for value in [(), ((((((((),),),),),),),), (1,) * 32, ("a" * 1020,), (b"a" * 1020,), (2**63 - 1, -(2**63))]:
            self.assertTrue(same(read_tuple(tuple_text(value)), value))

    def test_what_is_just_refused(self):
        deep: Tuple[Any, ...] = ((((((((1,),),),),),),),)
        rows = [
            (btspace.TooManyFields, (1,) * 33, 1, "more than 32 fields"),
            (btspace.TooDeep, (deep,), 2, "more than 8 levels"),
            (btspace.TooLong, ("a" * 1021,), 3, "an encoding of 1025 bytes; at most 1024 are taken"),
            (btspace.BadByte, (2**63,), 6, "an int has 64 bits here; Wide(..) has 128"),
        ]
        for kind, value, number, reason in rows:
            with self.assertRaises(kind) as caught:
                tuple_text(value)
            self.assertEqual((number, reason), (caught.exception.number, caught.exception.reason))
            self.assertEqual(f"refused {number}: {reason}", str(caught.exception))

    def test_half_a_surrogate_pair(self):
        with self.assertRaises(btspace.BadByte):
            tuple_text(("\ud800",))

    def test_what_is_no_value(self):
        for value in [(1.0,), (None,), ([1],), [1], "text", (btspace.ANY,), (bytearray(b"a"),)]:
            self.assertRaises(TypeError, tuple_text, value)
        self.assertRaises(TypeError, template_text, (None,))
        self.assertRaises(TypeError, btspace.Wide, True)
        self.assertRaises(OverflowError, btspace.Wide, 2**127)

    def test_wide_numbers(self):
        self.assertNotEqual(btspace.Wide(1), 1)
        self.assertEqual(btspace.Wide(1), btspace.Wide(1))
        self.assertLess(btspace.Wide(-1), btspace.Wide(1))
        self.assertEqual((1, "Wide(1)"), (int(btspace.Wide(1)), repr(btspace.Wide(1))))
