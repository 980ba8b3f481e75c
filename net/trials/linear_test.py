"""The checker sees what it has to: run by `python3 -m unittest` in this folder, and by net/test."""

import unittest
from math import inf

from linear import LINEAR, UNDECIDED, VIOLATED, Call, verdict
from space import ANY, INT, TEXT, apply, cas, inp, matches, out, rd_all, rdp, written


def history(*rows):
    return [Call(op, answer, begin, end) for op, answer, begin, end in rows]


class Verdicts(unittest.TestCase):
    def test_one_client(self):
        self.assertEqual(verdict([history((out(1), "done", 0, 1), (rdp(1), "found (1)", 2, 3))]), LINEAR)
        self.assertEqual(verdict([history((out(1), "done", 0, 1), (rdp(1), "absent", 2, 3))]), VIOLATED)

    def test_calls_at_the_same_time_have_any_order(self):
        put = history((out(1), "done", 0, 5))
        for answer in ("absent", "found (1)"):
            self.assertEqual(verdict([put, history((rdp(1), answer, 1, 4))]), LINEAR)
        self.assertEqual(verdict([put, history((rdp(1), "found (1)", 1, 2), (rdp(1), "absent", 3, 4))]), VIOLATED)

    def test_a_call_that_ended_acted_before_the_next(self):
        put = history((out(1), "done", 0, 1))
        self.assertEqual(verdict([put, history((rdp(1), "absent", 2, 3))]), VIOLATED)

    def test_a_tuple_is_taken_once(self):
        put = history((out(1), "done", 0, 1))
        take = history((inp(INT), "found (1)", 2, 9))
        self.assertEqual(verdict([put, take, history((inp(INT), "absent", 2, 9))]), LINEAR)
        self.assertEqual(verdict([put, take, take]), VIOLATED)

    def test_an_unanswered_call_may_have_acted(self):
        put = history((out(1), None, 0, inf))
        for answer in ("absent", "found (1)"):
            self.assertEqual(verdict([put, history((rdp(1), answer, 5, 6))]), LINEAR)
        self.assertEqual(verdict([put, history((rdp(2), "found (2)", 5, 6))]), VIOLATED)
        self.assertEqual(verdict([history((out(1), None, 7, inf)), history((rdp(1), "found (1)", 5, 6))]), VIOLATED)

    def test_the_search_is_bounded(self):
        clients = [history((out(it), "done", 0, 9)) for it in range(6)]
        clients.append(history((rdp(77), "found (77)", 0, 9)))
        self.assertEqual(verdict(clients, 50), UNDECIDED)
        self.assertEqual(verdict(clients), VIOLATED)


class Spaces(unittest.TestCase):
    def test_answers(self):
        # As docs/formats.md has them.
        tuples = ((1, "a"), (2, "b"), (1, "c"))
        rows = (
            (out(3), "done", tuples + ((3,),)),
            (rdp(1, ANY), 'found (1 "a")', tuples),
            (inp(1, TEXT), 'found (1 "a")', tuples[1:]),
            (inp(1), "absent", tuples),
            (cas((2, ANY), (2, "d")), "swapped false", tuples),
            (cas((4, ANY), (4, "d")), "swapped true", tuples + ((4, "d"),)),
            (rd_all(64, 1, ANY), 'all 2 (1 "a") (1 "c")', tuples),
            (rd_all(2, 9), "all 0", tuples),
        )
        for op, answer, after in rows:
            self.assertEqual(apply(tuples, op), (answer, after), op.line())

    def test_lines(self):
        self.assertEqual(out(1, "a").line(), 'out (1 "a")')
        self.assertEqual(cas((ANY, INT), (1, 2)).line(), "cas (* ?int) (1 2)")
        self.assertEqual(rd_all(3, TEXT).line(), "rdAll 3 (?text)")

    def test_numbers_and_texts_are_different(self):
        self.assertFalse(matches((INT,), ("1",)))
        self.assertFalse(matches(("1",), (1,)))
        self.assertTrue(matches((TEXT,), ("1",)))
        self.assertEqual(written(()), "()")


if __name__ == "__main__":
    unittest.main()
