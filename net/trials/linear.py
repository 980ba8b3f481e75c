"""Are there positions for all calls at which one sequential tuple space gives their answers?

Each call acts at one moment between its begin and its end. A call without an answer acted at some moment after its
begin, or never. The search is that of Wing and Gong (JPDC 1993), with the memo of Lowe (2017): depth first over which
calls have acted and what the space is then. A call that may act now, gets its answer now and changes nothing is taken
at once: to take it later helps no other one.
"""

from typing import NamedTuple, Optional

import space

LINEAR, VIOLATED, UNDECIDED = "linear", "violated", "undecided"
# So many states are looked at.
MOST_STATES = 400_000


class Call(NamedTuple):
    """An operation, its result line if it came, and the moments of both."""

    op: space.Op
    answer: Optional[str]
    begin: float
    end: float


def verdict(histories, most=MOST_STATES):
    """Of one history for each client, whose calls follow each other."""
    start = (0,) * len(histories), ()
    waiting, seen = [start], {start}
    while waiting:
        places, tuples = waiting.pop()
        steps = next_steps(histories, places, tuples)
        if steps is None:
            return LINEAR
        for client, after in reversed(steps):
            state = places[:client] + (places[client] + 1,) + places[client + 1 :], after
            if state not in seen:
                seen.add(state)
                waiting.append(state)
        if len(seen) > most:
            return UNDECIDED
    return VIOLATED


def next_steps(histories, places, tuples):
    """The clients whose next call may act now, each with the space behind it. None if all answered calls have acted."""
    due = [(client, calls[place]) for client, (calls, place) in enumerate(zip(histories, places)) if place < len(calls)]
    if all(call.answer is None for _, call in due):
        return None
    # A call that ended has acted before each one that begins later.
    first_end = min(call.end for _, call in due)
    steps = []
    for client, call in due:
        if call.begin > first_end:
            continue
        answer, after = space.apply(tuples, call.op)
        if call.answer not in (None, answer):
            continue
        if after == tuples and call.answer is not None:
            return [(client, after)]
        steps.append((client, after))
    return steps
