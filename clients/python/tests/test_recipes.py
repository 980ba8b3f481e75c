"""The recipes as a program uses them: with threads that contend, and with workers that died."""

import threading
import unittest

import btspace
from btspace import INT, Barrier, Config, Election, GivenUp, Held, Leader, Lock, Semaphore, Setting, TimedOut

from .support import local

# A worker that isn't there waits no longer.
SHORT = 0.05


class Recipes(unittest.TestCase):
    def setUp(self):
        self.space = local()
        self.addCleanup(self.space.close)

    def together(self, *works):
        """Runs these in threads, and raises what went wrong in one."""
        faults = []

        def run(work):
            try:
                work()
            except Exception as fault:
                faults.append(fault)

        threads = [threading.Thread(target=run, args=(it,)) for it in works]
        for it in threads:
            it.start()
        for it in threads:
            it.join(60)
        for it in faults:
            raise it
        self.assertFalse(any(it.is_alive() for it in threads))

    def assert_empty(self, *but):
        self.assertEqual([*but], [it for arity in range(5) for it in self.space.rd_all((btspace.ANY,) * arity)])


class Locks(Recipes):
    def test_one_holds_it_at_a_time(self):
        inside, most = [], []

        def work(number):
            for _ in range(5):
                with Lock(self.space, "printer", f"worker {number}"):
                    inside.append(number)
                    most.append(len(inside))
                    self.space.rdp(("what the lock guards",))
                    inside.pop()

        self.together(*(lambda number=number: work(number) for number in range(6)))
        self.assertEqual([1] * 30, most)
        self.assert_empty()

    def test_a_holder_that_died(self):
        Lock(self.space, "printer", "ann").acquire()
        ben = Lock(self.space, "printer", "ben")
        with self.assertRaises(TimedOut):
            ben.acquire(SHORT)
        self.assertEqual(Held(0, "ann"), ben.holder())
        self.assertTrue(ben.give_up(ben.holder()))
        self.assertEqual(Held(1, "ben"), ben.acquire(SHORT))
        self.assertTrue(ben.holds())
        ben.release()
        self.assert_empty(("term", "printer", 1))

    def test_a_holder_that_was_only_slow(self):
        ann, ben = Lock(self.space, "printer", "ann"), Lock(self.space, "printer", "ben")
        with self.assertRaises(GivenUp):
            with ann as held:
                self.assertTrue(ben.give_up(held))
                self.assertFalse(ben.give_up(held))
                self.assertFalse(ann.holds())
                self.assertEqual(Held(1, "ben"), ben.acquire(SHORT))
        self.assertTrue(ben.holds())

    def test_what_went_wrong_within_is_told(self):
        ann = Lock(self.space, "printer", "ann")
        with self.assertRaises(ZeroDivisionError):
            with ann as held:
                ann.give_up(held)
                1 / 0
        self.assertIsNone(ann.held)

    def test_who_dies_while_giving_up(self):
        Lock(self.space, "printer", "ann").acquire()
        self.space.out(("term", "printer", 1))
        # Her tuple is still there. Anybody does both once more.
        ben = Lock(self.space, "printer", "ben")
        self.assertTrue(ben.give_up(ben.holder()))
        self.assertEqual(1, ben.acquire(SHORT).term)

    def test_who_asked_and_got_no_answer(self):
        ann = Lock(self.space, "printer", "ann")
        self.space.cas(("lock", "printer", btspace.ANY, btspace.ANY), ("lock", "printer", 0, "ann"))
        with self.assertRaises(TimedOut):
            ann.acquire(SHORT)
        self.assertEqual("ann", ann.holder().holder)
        ann.give_up(ann.holder())
        self.assertEqual(Held(1, "ann"), ann.acquire(SHORT))

    def test_wrong_uses(self):
        ann = Lock(self.space, "printer")
        self.assertRaises(btspace.Error, ann.release)
        ann.acquire()
        self.assertRaises(btspace.Error, ann.acquire)
        self.assertNotEqual(ann.me, Lock(self.space, "printer").me)

    def test_an_interrupt_leaves_no_lock(self):
        class Interrupting:
            """A space at which the program is interrupted as soon as it has asked for the lock."""

            def __init__(self, space):
                self.submit = space.submit

            def run(self, steps):
                self.submit(next(steps))
                raise KeyboardInterrupt

        with self.assertRaises(KeyboardInterrupt):
            Lock(Interrupting(self.space), "printer", "ann").acquire()
        self.assertEqual(Held(0, "ben"), Lock(self.space, "printer", "ben").acquire(SHORT))


class Semaphores(Recipes):
    def test_as_many_hold_it_as_there_are_permits(self):
        ann, ben, cal = (Semaphore(self.space, "printers", 2, name) for name in ("ann", "ben", "cal"))
        with ann, ben:
            self.assertEqual([Held(0, "ann"), Held(0, "ben")], cal.holders())
            with self.assertRaises(TimedOut):
                cal.acquire(SHORT)
        with cal:
            self.assertEqual([Held(0, "cal"), None], cal.holders())
        self.assert_empty()
        self.assertRaises(ValueError, Semaphore, self.space, "printers", 0)

    def test_a_holder_that_died(self):
        for name in ("ann", "ben"):
            Semaphore(self.space, "printers", 2, name).acquire()
        cal = Semaphore(self.space, "printers", 2, "cal")
        self.assertTrue(cal.give_up(1, Held(0, "ben")))
        self.assertEqual(Held(1, "cal"), cal.acquire(SHORT))
        self.assertEqual([Held(0, "ann"), Held(1, "cal")], cal.holders())


class Barriers(Recipes):
    CREW = ("ann", "ben", "cal")

    def test_rounds(self):
        passed = []

        def work(name):
            barrier = Barrier(self.space, "start", self.CREW, name)
            for number in range(1, 6):
                self.assertEqual(number, barrier.wait(60))
                passed.append(number)

        self.together(*(lambda name=name: work(name) for name in self.CREW))
        self.assertEqual(sorted(passed), passed)
        self.assert_empty(*self.space.rd_all(("arrived", "start", 5, btspace.TEXT)))

    def test_a_worker_that_died(self):
        ann, ben = (Barrier(self.space, "start", self.CREW, name) for name in ("ann", "ben"))
        with self.assertRaisesRegex(TimedOut, "round 1 of 'start' waits for ben, cal"):
            ann.wait(SHORT)
        ben.arrive()
        self.assertEqual(["cal"], ann.missing())
        # Dora takes Cal's work over.
        dora = Barrier(self.space, "start", self.CREW, "cal")
        self.assertEqual(1, dora.join())
        self.assertEqual([1, 1, 1], [it.wait(60) for it in (dora, ann, ben)])
        # In the second round Ann arrives for her.
        ann.arrive("cal")
        ben.arrive()
        self.assertEqual([2, 2], [it.wait(60) for it in (ann, ben)])
        self.assertEqual(2, Barrier(self.space, "start", self.CREW, "cal").join())

    def test_a_worker_that_was_slow(self):
        ann, ben = (Barrier(self.space, "start", ("ann", "ben"), name) for name in ("ann", "ben"))
        for _ in range(3):
            ben.arrive("ann")
            ben.wait(60)
        self.assertEqual([1, 2, 3], [ann.wait(60) for _ in range(3)])

    def test_crews(self):
        for workers, me in [(("ann", "ann"), "ann"), (("ann",), "ben"), (tuple(map(str, range(33))), "1")]:
            self.assertRaises(ValueError, Barrier, self.space, "start", workers, me)


class Elections(Recipes):
    def test_one_leads_a_term(self):
        leaders = []

        def work(name):
            leaders.append(Election(self.space, "scheduler", name).stand())

        self.together(*(lambda name=name: work(f"worker {name}") for name in range(6)))
        self.assertEqual(1, len({*leaders}))
        self.assertEqual(1, leaders[0].term)

    def test_a_leader_that_died(self):
        ann, ben = Election(self.space, "scheduler", "ann"), Election(self.space, "scheduler", "ben")
        self.assertIsNone(ben.leader())
        dead = ann.stand()
        self.assertEqual((Leader(1, "ann"), True), (dead, ann.leads(1)))
        self.assertEqual(dead, ben.stand())
        self.assertEqual(Leader(2, "ben"), ben.stand(instead_of=dead))
        # Ann was only slow.
        self.assertFalse(ann.leads(1))
        self.assertEqual(Leader(2, "ben"), ann.stand(instead_of=dead))
        self.assert_empty(("leader", "scheduler", 2, "ben"))


class Configs(Recipes):
    def test_no_change_is_lost(self):
        config = Config(self.space)

        def work(name):
            for number in range(5):
                mine = f"{name} {number}"
                config.change("members", lambda before: tuple(sorted({*(before.value if before else ()), mine})))

        self.together(*(lambda name=name: work(name) for name in ("ann", "ben", "cal", "dan")))
        self.assertEqual(20, len(config.get("members").value))
        self.assert_empty(("setting", "members", *config.get("members")))

    def test_settings(self):
        config = Config(self.space)
        self.assertIsNone(config.get("mask"))
        self.assertEqual(Setting(1, b"\x00"), config.begin("mask", b"\x00"))
        self.assertEqual(Setting(1, b"\x00"), config.begin("mask", b"\x01"))
        self.assertEqual(Setting(2, (3, -4)), config.set("mask", (3, -4)))
        self.assertEqual(Setting(2, (3, -4)), config.get("mask"))
        self.assertEqual(Setting(1, True), config.set("other", True))

    def test_a_writer_that_died(self):
        config = Config(self.space)
        config.set("limit", 1)
        self.space.out(("setting", "limit", 2, 250))
        self.assertEqual(Setting(2, 250), config.get("limit"))
        self.assertEqual(Setting(3, 300), config.set("limit", 300))
        self.assert_empty(("setting", "limit", 3, 300))

    def test_more_versions_than_a_list_tells(self):
        for version in range(1, 131):
            self.space.out(("setting", "limit", version, version))
        self.assertEqual(Setting(130, 130), Config(self.space).get("limit"))
        self.assertEqual(Setting(131, 0), Config(self.space).set("limit", 0))

    def test_others_change_it_all_the_time(self):
        config = Config(self.space)

        def decide(before):
            config.set("limit", 7)
            return 8

        with self.assertRaises(TimedOut):
            config.change("limit", decide, timeout=SHORT)
        self.assertEqual(7, config.get("limit").value)
        self.assertEqual([], self.space.rd_all(("setting", "limit", INT, 8)))
