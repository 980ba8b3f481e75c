"""Each operation of a space, and each refusal."""

import threading
import unittest

import btspace
from btspace import ANY, BOOL, BYTES, INT, TEXT, TUPLE, WIDE, Wide

from .support import local


class Calls(unittest.TestCase):
    def setUp(self):
        self.space = local()
        self.addCleanup(self.space.close)

    def test_each_operation(self):
        space = self.space
        self.assertIsNone(space.out(("job", 1)))
        self.assertIsNone(space.out(("job", 2)))
        self.assertEqual(("job", 1), space.rdp(("job", INT)))
        self.assertIsNone(space.rdp(("job", TEXT)))
        self.assertEqual([("job", 1), ("job", 2)], space.rd_all(("job", ANY)))
        self.assertEqual([("job", 1)], space.rd_all(("job", ANY), 1))
        self.assertEqual([], space.rd_all(("task", ANY)))
        self.assertIs(space.cas(("job", ANY), ("job", 3)), False)
        self.assertIs(space.cas(("owner", ANY), ("owner", "ann")), True)
        self.assertEqual(("job", 1), space.inp(("job", ANY)))
        self.assertEqual(("job", 2), space.inp(("job", ANY)))
        self.assertIsNone(space.inp(("job", ANY)))

    def test_each_kind(self):
        value = (-5, 'a "text"\n\x00', b"\x00\xff", True, False, (), ("nested", (1,)))
        self.space.out(value)
        found = self.space.rdp((INT, TEXT, BYTES, BOOL, False, (), TUPLE))
        self.assertEqual(value, found)
        self.assertEqual([type(it) for it in value], [type(it) for it in found])
        self.assertIsNone(self.space.rdp((INT, TEXT, BYTES, BOOL, 0, (), TUPLE)))
        self.assertEqual(value, self.space.rdp((ANY, ANY, ANY, ANY, ANY, ANY, ("nested", (INT,)))))

    def test_versions(self):
        for call in (
            lambda: self.space.out((Wide(1),)),
            lambda: self.space.rdp((WIDE,)),
            lambda: self.space.in_all((ANY,)),
        ):
            with self.assertRaises(btspace.NotAllowed) as caught:
                call()
            self.assertIsNone(caught.exception.number)
        self.space.upgrade()
        self.space.out((Wide(2**100),))
        self.space.out((1,))
        self.assertEqual((Wide(2**100),), self.space.rdp((WIDE,)))
        self.assertEqual([(Wide(2**100),), (1,)], self.space.in_all((ANY,)))

    def test_a_space_that_is_full(self):
        answers = [self.space.submit(btspace.operations.out((number,))) for number in range(8192)]
        self.assertEqual({"done"}, {it.result(60) for it in answers})
        with self.assertRaises(btspace.Full):
            self.space.out(("one more",))
        with self.assertRaises(btspace.Full):
            self.space.cas(("one more",), ("one more",))
        self.assertEqual((0,), self.space.inp((INT,)))
        self.space.out(("one more",))

    def test_what_the_package_refuses_is_not_sent(self):
        for value in [(1,) * 33, ("a" * 1021,), (2**63,), (1.5,)]:
            for call in (self.space.out, self.space.rdp, self.space.inp, lambda it: self.space.cas((), it)):
                self.assertRaises((btspace.Refused, TypeError), call, value)
        self.assertRaises(ValueError, self.space.rd_all, (), 65)
        self.assertRaises(ValueError, self.space.rd_all, (), 0)
        self.assertEqual([], self.space.rd_all((ANY,)))

    def test_what_the_program_refuses(self):
        """A line that the package wouldn't write is refused by the program, and the space goes on."""
        rows = [
            ("out (%s)" % " ".join(["1"] * 33), btspace.TooManyFields, 1, "more than 32 fields"),
            ("rdp (((((((((1)))))))))", btspace.TooDeep, 2, "more than 8 levels"),
            (f'out ("{"a" * 1021}")', btspace.TooLong, 3, "an encoding of more than 1,024 bytes"),
            ("foo", btspace.BadByte, 6, "no line begins so: f"),
            ("out (1", btspace.BadByte, 6, "the line ends too early"),
            ("out (" + " " * 70_000, btspace.BadByte, 6, "a line has at most 65536 bytes"),
        ]
        self.space.out(("kept",))
        for line, kind, number, reason in rows:
            with self.assertRaises(kind) as caught:
                self.space.process.ask(line, 60)
            self.assertEqual((number, reason), (caught.exception.number, caught.exception.reason))
        self.assertEqual(("kept",), self.space.rdp((ANY,)))

    def test_what_is_no_line(self):
        for line in ["", "  ", "# comment", "out (1)\nout (2)", " \r"]:
            self.assertRaises(ValueError, self.space.process.ask, line, 60)

    def test_waiting(self):
        with self.assertRaises(btspace.TimedOut):
            self.space.take(("job", INT), 0.05)
        with self.assertRaises(btspace.TimedOut):
            self.space.read(("job", INT), 0)
        later = threading.Timer(0.05, self.space.out, [("job", 1)])
        later.start()
        self.assertEqual(("job", 1), self.space.read(("job", INT), 60))
        self.assertEqual(("job", 1), self.space.take(("job", INT), 0))
        self.assertIsNone(self.space.rdp(("job", INT)))
        later.join()

    def test_threads_share_a_space(self):
        """Each call of each thread gets its own answer."""
        wrong = []

        def work(me):
            for number in range(50):
                self.space.out((me, number))
                if self.space.inp((me, INT)) != (me, number) or self.space.rdp((me, INT)) is not None:
                    wrong.append((me, number))

        threads = [threading.Thread(target=work, args=(me,)) for me in range(8)]
        for it in threads:
            it.start()
        for it in threads:
            it.join(60)
        self.assertEqual([], wrong)
        self.assertEqual([], self.space.rd_all((INT, INT)))

    def test_a_closed_space(self):
        self.space.close()
        self.space.close()
        self.assertRaises(btspace.Error, self.space.rdp, ())
