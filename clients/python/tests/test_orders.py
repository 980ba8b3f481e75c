"""The recipes' very steps, in every order of their workers' calls, and with workers that stop at every place.

tools/orders.py goes through the states, as tools/recipes does with its own wording of the recipes. In each state the
promise of the recipe is looked at, and an heir goes on alone, as if all others had died there.
"""

import importlib.util
import sys
import unittest
from typing import Any

from btspace import Formal, GivenUp, recipes
from btspace.waiting import Pause

from .support import TOP

ORDERS = TOP / "tools" / "orders.py"
if ORDERS.exists():
    spec = importlib.util.spec_from_file_location("orders", ORDERS)
    assert spec is not None and spec.loader is not None
    orders: Any = importlib.util.module_from_spec(spec)
    sys.modules["orders"] = orders
    spec.loader.exec_module(orders)
    FIELDS = {Formal.ANY: orders.ANY, Formal.INT: orders.INT, Formal.TEXT: orders.TEXT}


def called(steps, tries=1):
    """These steps as the calls of a worker. After so many pauses it waits for ever."""
    answer = None
    while True:
        try:
            step = steps.send(answer)
        except StopIteration as end:
            return end.value
        answer = None
        if isinstance(step, Pause):
            tries -= 1
            if not tries:
                yield from wait_for_ever()
        else:
            call = (step.word, *(tuple(FIELDS.get(it, it) for it in each) for each in step.arguments))
            # No recipe looks at the age of tuples: so there are fewer states.
            answer = yield orders.viewed(in_order, *call) if step.word == "rdAll" else call


def in_order(tuples):
    return tuple(sorted(tuples))


class WaitsForEver(Exception):
    pass


def wait_for_ever():
    raise WaitsForEver
    yield


def worker(run):
    """A worker that ends where it would wait for ever."""

    def begin():
        try:
            yield from run()
        except (WaitsForEver, GivenUp):
            pass

    return begin


def trial(start, workers, promise, heir, promise_of_heir, is_in_order=False):
    return orders.Trial(
        start, {name: worker(it) for name, it in workers.items()}, promise, worker(heir), promise_of_heir, is_in_order
    )


def highest_stays(space, puts, word, place):
    put = [it[place] for it in puts if it[0] == word]
    orders.hold(not put or max(put) in [it[place] for it in space if it[0] == word], "the highest is gone", space)


def heir_has(what):
    return lambda notes, _others: orders.hold(orders.noted(notes, what), f"nobody {what} any more")


def ask_for_lock(me, give_up=recipes.give_up, gives_up=True):
    if gives_up:
        held = yield from called(recipes.holder("it"))
        if held is not None:
            yield orders.note("gives up", held)
            yield from called(give_up("it", held))
    _, held = yield from called(recipes.acquire(["it"], me, 60))
    yield orders.note("holds", held)
    yield ("rdp", ("what the lock guards",))
    yield orders.note("lets go", held)
    yield from called(recipes.release("it", held))


def give_up_at_once(name, held):
    """A wrong form: the holder's tuple is taken away before the next term begins."""
    yield recipes.inp(("lock", name, *held))
    term = ("term", name, held.term + 1)
    yield recipes.cas(term, term)


def held_by(what, notes):
    return [held for each in notes.values() for (held,) in orders.noted(each, what)]


def promise_of_lock(space, notes, puts):
    """One holds the lock at a time, but for those who were given up: they have lower terms."""
    given_up = held_by("gives up", notes)
    inside = sorted({*held_by("holds", notes)} - {*held_by("lets go", notes)})
    for lower, higher in zip(inside, inside[1:]):
        orders.hold(lower.term < higher.term and lower in given_up, "two hold the lock", inside, space)
    highest_stays(space, puts, "term", 2)


def lock(**form):
    workers = {
        "ann": lambda: ask_for_lock("ann", gives_up=False),
        "ben": lambda: ask_for_lock("ben", **form),
        "cal": lambda: ask_for_lock("cal", gives_up=False),
    }
    return trial((), workers, promise_of_lock, lambda: ask_for_lock("zoe"), heir_has("holds"))


def stand(me, instead_of=None):
    leader = yield from called(recipes.stand("it", me, instead_of))
    if leader.name == me:
        yield orders.note("leads", leader.term)


def stand_instead(me):
    leader = yield from called(recipes.leader("it"))
    yield from stand(me, leader)


def promise_of_election(space, notes, puts):
    led = [it for each in notes.values() for it in orders.noted(each, "leads")]
    orders.hold(len(led) == len({*led}), "two lead one term", notes)
    highest_stays(space, puts, "leader", 2)


def election():
    workers = {"ann": lambda: stand_instead("ann"), "ben": lambda: stand_instead("ben"), "cal": lambda: stand("cal")}
    return trial((), workers, promise_of_election, lambda: stand_instead("zoe"), heir_has("leads"))


def change(me):
    def decide(before):
        return f"{before.value}, {me}"

    after = yield from called(recipes.change("limit", decide, 60), tries=2)
    yield orders.note("changed", after)


def promise_of_configuration(space, notes, puts):
    """A setting always has a value. A change that is made follows the highest version at that time."""
    highest_stays(space, puts, "setting", 2)
    orders.hold(any(it[0] == "setting" for it in space), "there is no value")
    for each in notes.values():
        for (after,) in orders.noted(each, "changed"):
            at = puts.index(("setting", "limit", *after))
            before = max(puts[:at], key=lambda it: it[2], default=("setting", "limit", 1, "100"))
            orders.hold(before[2] == after.version - 1, "a change of an older version is made", after, puts)
            orders.hold(after.value.startswith(before[3]), "a change is lost", after, puts)


def configuration():
    workers = {"ann": lambda: change("ann"), "ben": lambda: change("ben")}
    start = (("setting", "limit", 1, "100"),)
    return trial(start, workers, promise_of_configuration, lambda: change("zoe"), heir_has("changed"), True)


CREW = ("ann", "ben")


def meet(name, rounds):
    for at in rounds:
        yield orders.note("waits", at)
        yield from called(recipes.meet("it", at, CREW, name, 60))
        yield orders.note("passes", at)


def stand_in():
    at = yield from called(recipes.latest_round("it"))
    for name in CREW:
        yield from called(recipes.arrive("it", at, name))
    yield from meet("ann", [at])


def promise_of_barrier(_space, notes, puts):
    for each in notes.values():
        for (at,) in orders.noted(each, "passes"):
            came = all(("arrived", "it", at, name) in puts for name in CREW)
            orders.hold(came, "a round is passed too early", at, puts)


def barrier():
    workers = {
        "ann": lambda: meet("ann", [1, 2]),
        "ben": lambda: meet("ben", [1]),
        "cal for ben": lambda: meet("ben", [1, 2]),
    }
    return trial((), workers, promise_of_barrier, stand_in, heir_has("passes"))


@unittest.skipUnless(ORDERS.exists(), "tools/orders.py is in the whole repository alone")
class EveryOrder(unittest.TestCase):
    def test_lock(self):
        self.assertGreater(orders.try_all(lock()), 100)

    def test_lock_that_is_given_up_the_wrong_way_round(self):
        with self.assertRaisesRegex(orders.Broken, "two hold the lock"):
            orders.try_all(lock(give_up=give_up_at_once))

    def test_election(self):
        self.assertGreater(orders.try_all(election()), 100)

    def test_configuration(self):
        self.assertGreater(orders.try_all(configuration()), 100)

    def test_barrier(self):
        self.assertGreater(orders.try_all(barrier()), 100)
