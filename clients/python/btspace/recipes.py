"""The recipes of docs/recipes.md as steps, for the classes of `locks`, `barriers`, `registers` and of `aio`.

Each keeps to the order of calls that the recipe gives: on it stands that nothing is lost wherever a worker dies. The
tests try these very steps in every order, as `tools/recipes` tries the recipes.
"""

import os
import socket
from typing import Any, Callable, List, NamedTuple, Optional, Sequence

from .errors import GivenUp
from .operations import MOST_MATCHES, cas, inp, rd_all, rdp
from .values import ANY, INT, TEXT, Template, TupleValue, Value
from .waiting import Steps, next_pause, pauses

__all__ = [
    "Held",
    "Leader",
    "MOST_WORKERS",
    "Setting",
    "acquire",
    "arrive",
    "begin",
    "change",
    "crew",
    "give_up",
    "holder",
    "holds",
    "latest_round",
    "leader",
    "meet",
    "missing",
    "own_name",
    "permit_names",
    "release",
    "setting",
    "stand",
    "try_acquire",
    "try_change",
]

def own_name() -> str:
    """A name that no other worker has: the machine, the process, and a lot."""
    return f"{socket.gethostname()}/{os.getpid()}/{os.urandom(4).hex()}"


# ---- A register: tuples with rising numbers, of which the highest counts. Only a number below one that is there is
# taken away. Whoever has put one looks again, since the higher ones that forbade it may have been taken away meanwhile.


def _all(template: Template, place: int) -> "Steps[List[Any]]":
    """All tuples of a register, whose numbers stand at this place. A list that may lack some is cleared from below."""
    while True:
        found: List[Any] = yield rd_all(template)
        lower = [it for it in found if it[place] < max(it[place] for it in found)]
        if len(found) < MOST_MATCHES or not lower:
            return found
        yield from _take(lower)


def _highest(template: Template, place: int) -> "Steps[Any]":
    found = yield from _all(template, place)
    return max(found, key=lambda it: it[place], default=None)


def _take(tuples: Sequence[TupleValue]) -> "Steps[None]":
    for it in tuples:
        yield inp(it)


def _put_next(template: Template, free: Template, mine: Any, place: int) -> "Steps[bool]":
    """Puts a tuple of the next number, and gives whether it is the highest. `free` matches all others of its number."""
    if not (yield cas(free, mine)):
        return False
    found = yield from _all(template, place)
    if any(it[place] > mine[place] for it in found):
        yield inp(mine)
        return False
    yield from _take([it for it in found if it[place] < mine[place]])
    return True


# ---- The lock: ("lock" NAME TERM HOLDER), and the register of its terms, ("term" NAME TERM).


class Held(NamedTuple):
    """Who holds a lock, and in which term."""

    term: int
    holder: str


def _term(name: str) -> "Steps[int]":
    highest = yield from _highest(("term", name, INT), 2)
    return highest[2] if highest is not None else 0


def try_acquire(name: str, me: str) -> "Steps[Optional[Held]]":
    """Asks once. It looks again in the end: a tuple of an older term than the latest doesn't hold the lock."""
    term = 0
    while True:
        mine = ("lock", name, term, me)
        if not (yield cas(("lock", name, ANY, ANY), mine)):
            return None
        now = yield from _term(name)
        if now == term:
            return Held(term, me)
        yield inp(mine)
        term = now


def acquire(names: Sequence[str], me: str, timeout: float) -> "Steps[Any]":
    """Asks for the first lock of these that is free, again and again. Gives its place and what it holds."""
    waits = pauses(timeout)
    while True:
        for place, name in enumerate(names):
            held = yield from try_acquire(name, me)
            if held is not None:
                return place, held
        yield next_pause(waits, f"{names[0]!r} wasn't free within {timeout} seconds")


def release(name: str, held: Held) -> "Steps[None]":
    if (yield inp(("lock", name, *held))) is None:
        raise GivenUp(f"{held.holder} held {name!r} in term {held.term}, and was given up")


def holder(name: str) -> "Steps[Optional[Held]]":
    found: Any = yield rdp(("lock", name, INT, TEXT))
    return found and Held(*found[2:])


def holds(name: str, held: Held) -> "Steps[bool]":
    """Whether it is still in the space, and no later term has begun."""
    if (yield rdp(("lock", name, *held))) is None:
        return False
    return (yield from _term(name)) == held.term


def give_up(name: str, held: Held) -> "Steps[bool]":
    """Begins the next term, and only then takes this very tuple away. Gives whether it was there."""
    term = ("term", name, held.term + 1)
    yield cas(term, term)
    gone = yield inp(("lock", name, *held))
    found: List[Any] = yield rd_all(("term", name, INT))
    yield from _take([it for it in found if it[2] <= held.term])
    return gone is not None


def permit_names(semaphore: str, permits: int) -> List[str]:
    """The names of the locks that are a semaphore's permits."""
    return [f"{semaphore} permit {number}" for number in range(1, permits + 1)]


# ---- The barrier: ("arrived" BARRIER ROUND WORKER).

# Two rounds are there at a time, and one list has to tell both.
MOST_WORKERS = MOST_MATCHES // 2


def crew(workers: Sequence[str], me: str) -> List[str]:
    """The workers of a barrier, if they can meet."""
    names = [*workers]
    if len({*names}) != len(names) or len(names) > MOST_WORKERS or me not in names:
        raise ValueError(f"a barrier is for 1 to {MOST_WORKERS} workers of different names, of whom {me!r} is one")
    return names


def arrive(barrier: str, round: int, worker: str) -> "Steps[None]":
    mine = ("arrived", barrier, round, worker)
    yield cas(mine, mine)


def missing(barrier: str, round: int, workers: Sequence[str]) -> "Steps[List[str]]":
    """Who hasn't arrived at this round. If a later one has begun, nobody is missing."""
    arrivals: List[Any] = yield rd_all(("arrived", barrier, INT, TEXT))
    if any(it[2] > round for it in arrivals):
        return []
    here = {it[3] for it in arrivals if it[2] == round}
    return [it for it in workers if it not in here]


def meet(barrier: str, round: int, workers: Sequence[str], me: str, timeout: float) -> "Steps[None]":
    """Arrives, and waits for the others. Then it takes its tuple of the round before away."""
    yield from arrive(barrier, round, me)
    waits = pauses(timeout)
    while True:
        awaited = yield from missing(barrier, round, workers)
        if not awaited:
            break
        yield next_pause(waits, f"round {round} of {barrier!r} waits for {', '.join(awaited)}")
    yield inp(("arrived", barrier, round - 1, me))


def latest_round(barrier: str) -> "Steps[int]":
    arrivals: List[Any] = yield rd_all(("arrived", barrier, INT, TEXT))
    return max((it[2] for it in arrivals), default=1)


# ---- The election: ("leader" ELECTION TERM NAME) is a register.


class Leader(NamedTuple):
    """Who leads, and in which term."""

    term: int
    name: str


def leader(election: str) -> "Steps[Optional[Leader]]":
    highest = yield from _highest(("leader", election, INT, TEXT), 2)
    return highest and Leader(*highest[2:])


def stand(election: str, me: str, instead_of: Optional[Leader]) -> "Steps[Leader]":
    """Stands for the next term if this is the leader, or nobody leads. Gives who leads then."""
    while True:
        now = yield from leader(election)
        if now is not None and now != instead_of:
            return now
        term = now.term + 1 if now is not None else 1
        mine = ("leader", election, term, me)
        if (yield from _put_next(("leader", election, INT, TEXT), ("leader", election, term, TEXT), mine, 2)):
            return Leader(term, me)


# ---- The configuration: ("setting" NAME VERSION VALUE) is a register for each name.


class Setting(NamedTuple):
    """A setting's value, and its version, from 1."""

    version: int
    value: Value


def setting(name: str) -> "Steps[Optional[Setting]]":
    highest = yield from _highest(("setting", name, INT, ANY), 2)
    return highest and Setting(*highest[2:])


def try_change(name: str, before: Optional[Setting], value: Value) -> "Steps[Optional[Setting]]":
    """Puts the version after this one. Gives None if another was put meanwhile."""
    after = Setting(before.version + 1 if before is not None else 1, value)
    mine = ("setting", name, *after)
    is_made = yield from _put_next(("setting", name, INT, ANY), ("setting", name, after.version, ANY), mine, 2)
    return after if is_made else None


def begin(name: str, value: Value) -> "Steps[Setting]":
    """Puts version 1 unless there is a version. Gives the highest that there is then."""
    yield cas(("setting", name, INT, ANY), ("setting", name, 1, value))
    # The highest never goes, so there is one.
    now = yield from setting(name)
    assert now is not None
    return now


def change(name: str, decide: Callable[[Optional[Setting]], Value], timeout: float) -> "Steps[Setting]":
    """Reads, lets `decide` say the new value, and puts it, until no other change came between."""
    waits = pauses(timeout)
    while True:
        before = yield from setting(name)
        after = yield from try_change(name, before, decide(before))
        if after is not None:
            return after
        yield next_pause(waits, f"others changed {name!r} all the time, for {timeout} seconds")
