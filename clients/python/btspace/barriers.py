"""Barriers, by the recipe of docs/recipes.md."""

from typing import List, Optional, Sequence

from . import recipes
from .space import Space

__all__ = ["Barrier"]


class Barrier:
    """A place where workers meet, round after round: nobody passes a round before all have arrived at it.

        barrier = Barrier(space, "start", ["ann", "ben", "cal"], me="ann")
        barrier.wait(timeout=10)

    *A worker that died* before it arrived keeps the others waiting: TimedOut tells who is missing, and `missing` too.
    One that died later costs nothing in that round. Whoever takes its work over makes a barrier in its name, calls
    `join`, and goes on. Or somebody who waits calls `arrive` for it, round after round.

    *A worker that was only slow* arrives once more, which does no harm, and passes each round that is over.
    """

    def __init__(self, space: Space, name: str, workers: Sequence[str], me: str, *, round: int = 1) -> None:
        """`workers` are the names of all, 32 at most. The first `wait` is for this round."""
        self.workers = recipes.crew(workers, me)
        self.space = space
        self.name = name
        self.me = me
        self.round = round

    def wait(self, timeout: float) -> int:
        """Arrives at the round, waits until all have, and gives its number.

        After so many seconds TimedOut is raised. Then this worker has arrived all the same, and may wait again.
        """
        self.space.run(recipes.meet(self.name, self.round, self.workers, self.me, timeout))
        self.round += 1
        return self.round - 1

    def arrive(self, worker: Optional[str] = None) -> None:
        """Arrives at the round without waiting, for this worker or in the name of another."""
        self.space.run(recipes.arrive(self.name, self.round, self.me if worker is None else worker))

    def missing(self) -> List[str]:
        """Who hasn't arrived at this round yet."""
        return self.space.run(recipes.missing(self.name, self.round, self.workers))

    def join(self) -> int:
        """Goes on with the latest round at which anybody has arrived, and gives its number. Wait for it then."""
        self.round = self.space.run(recipes.latest_round(self.name))
        return self.round
