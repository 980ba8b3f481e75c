"""Programs that die, stand still, or say what they shouldn't."""

import os
import signal
import time
import unittest

import btspace
from btspace import NoAnswer, ProcessEnded, Space

from .support import PROGRAM, local, script

# A program that answers `done` to each line, after what stands here was done with the number of the line.
ANSWERS = """
    import os, sys, time
    for number, line in enumerate(sys.stdin, 1):
        {}
        print("done")
"""


class Ends(unittest.TestCase):
    def start(self, command, **options):
        space = Space(command, **options)
        self.addCleanup(space.close)
        return space

    def test_answers_that_were_given_are_not_lost(self):
        space = self.start(script(ANSWERS.format("if number == 3: sys.stdout.write('do'); sys.exit(7)")))
        answers = [space.submit(btspace.operations.out((number,))) for number in range(5)]
        self.assertEqual(["done", "done"], [it.result(60) for it in answers[:2]])
        for it in answers[2:]:
            self.assertIsInstance(it.exception(60), ProcessEnded)
        with self.assertRaises(ProcessEnded) as caught:
            space.out((9,))
        self.assertEqual((7, "do"), (caught.exception.status, caught.exception.said))
        self.assertEqual("the process ended with 7: do", str(caught.exception))

    def test_a_program_that_is_killed(self):
        space = local()
        self.addCleanup(space.close)
        space.out((1,))
        os.kill(space.process.pid, signal.SIGKILL)
        with self.assertRaises(ProcessEnded) as caught:
            space.out((2,))
        self.assertEqual((-9, "the process ended by signal 9"), (caught.exception.status, str(caught.exception)))

    def test_a_program_without_memory(self):
        """What it wrote before stands; and it says why it stopped."""
        space = self.start(["sh", "-c", 'ulimit -v 4400; exec "$@"', "sh", *PROGRAM, "local", "--keep-going", "-"])
        answers = [space.submit(btspace.operations.out(("a" * 1000, number))) for number in range(8000)]
        with self.assertRaises(ProcessEnded) as caught:
            for it in answers:
                it.result(60)
        self.assertEqual((3, "stopped\nout of memory"), (caught.exception.status, caught.exception.said))
        given = [it for it in answers if it.exception(60) is None]
        self.assertGreater(len(given), 100)
        self.assertEqual(answers[: len(given)], given)

    def test_wrong_words(self):
        space = self.start([*PROGRAM, "local", "--nothing"])
        with self.assertRaises(ProcessEnded) as caught:
            space.rdp(())
        self.assertEqual(2, caught.exception.status)
        self.assertIn("--nothing", caught.exception.said)

    def test_no_program(self):
        self.assertRaises(FileNotFoundError, Space, ["/nothing/at/all"])

    def test_a_program_that_stands_still(self):
        space = self.start(script("import time; time.sleep(600)"), timeout=0.2)
        self.assertRaises(NoAnswer, space.rdp, ())
        # So much that no pipe has room for it. No call waits for the program to read it.
        answers = [space.submit(btspace.operations.rdp(("a" * 1000,))) for _ in range(500)]
        self.assertRaises(NoAnswer, space.rdp, ())
        begin = time.monotonic()
        space.process.close(timeout=0.2)
        self.assertLess(time.monotonic() - begin, 60)
        for it in answers:
            self.assertIsInstance(it.exception(60), ProcessEnded)

    def test_a_late_answer_is_passed_over(self):
        wait = "if number == 1: sys.stdin.readline(); time.sleep(1); print('absent')"
        space = self.start(script(ANSWERS.format(wait)), timeout=0.5)
        self.assertRaises(NoAnswer, space.rdp, ())
        space.timeout = 60
        space.out((1,))

    def test_a_program_that_closes_its_outputs(self):
        space = self.start(script("import os, time; os.close(1); os.close(2); time.sleep(600)"))
        with self.assertRaises(ProcessEnded) as caught:
            space.rdp(())
        self.assertIsNone(caught.exception.status)


class Says(unittest.TestCase):
    def ask(self, said, call=lambda space: space.rdp(())):
        with Space(script(f"import sys; sys.stdin.readline(); print({said!r}); sys.stdin.read()"), timeout=60) as space:
            return call(space)

    def test_lines_before_answers(self):
        self.assertEqual((1,), self.ask("building ..\n\nfound it\ndone with that\nfound (1)"))

    def test_wrong_answers(self):
        for said in ["done", "found (01)", "found (1) (2)", "all 1 (1)", "swapped true", "found ( 1)", "absent now"]:
            with self.assertRaises((btspace.BadAnswer, NoAnswer)) as caught:
                self.ask(said, self.within_a_moment if said == "absent now" else lambda space: space.rdp(()))
            self.assertIsInstance(caught.exception, btspace.Unanswered)
        for said in ["all 2 (1)", "all 0 (1)", "all 1", "found (1)"]:
            self.assertRaises(btspace.BadAnswer, self.ask, said, lambda space: space.rd_all(()))

    @staticmethod
    def within_a_moment(space):
        space.timeout = 0.2
        return space.rdp(())

    def test_refusals_on_one_line(self):
        with self.assertRaises(btspace.BadByte) as caught:
            self.ask("! refused 6 at byte 4: no line begins so")
        self.assertEqual((4, "no line begins so"), (caught.exception.offset, caught.exception.reason))
        with self.assertRaises(btspace.BadByte) as caught:
            self.ask("! line 3: refused 6 at byte 4")
        self.assertEqual((4, ""), (caught.exception.offset, caught.exception.reason))
        with self.assertRaises(btspace.TooDeep):
            self.ask("! line 1: refused 2")
        with self.assertRaises(btspace.Refused) as refused:
            self.ask("! refused 25")
        self.assertEqual(25, refused.exception.number)
        self.assertRaises(btspace.Unanswered, self.ask, "! stopped")
