"""Locks and semaphores, by the recipes of docs/recipes.md."""

from types import TracebackType
from typing import List, Optional, Type

from . import recipes
from .errors import Error, GivenUp
from .operations import inp
from .recipes import Held, own_name
from .space import Space
from .values import INT

__all__ = ["Lock", "Semaphore"]


class _Permits:
    """What one worker holds of several locks: one at most."""

    def __init__(self, space: Space, names: List[str], me: Optional[str], timeout: float) -> None:
        self.space = space
        self.me = own_name() if me is None else me
        self.timeout = timeout
        self.held: Optional[Held] = None
        self._names = names
        self._place = 0

    def acquire(self, timeout: Optional[float] = None) -> Held:
        """Waits, and gives the term in which it is held. After so many seconds TimedOut is raised."""
        if self.held is not None:
            raise Error(f"this worker holds {self._names[self._place]!r} already")
        seconds = self.timeout if timeout is None else timeout
        try:
            self._place, self.held = self.space.run(recipes.acquire(self._names, self.me, seconds))
        except KeyboardInterrupt:
            # A call of the recipe may be under way. These come behind it.
            for name in self._names:
                self.space.submit(inp(("lock", name, INT, self.me)))
            raise
        return self.held

    def release(self) -> None:
        """Lets go. GivenUp says that somebody else may have held it meanwhile."""
        if self.held is None:
            raise Error(f"{self.me} holds nothing")
        held, self.held = self.held, None
        self.space.run(recipes.release(self._names[self._place], held))

    def holds(self) -> bool:
        """Whether this worker held it a moment ago, and wasn't given up."""
        return self.held is not None and self.space.run(recipes.holds(self._names[self._place], self.held))

    def __enter__(self) -> Held:
        return self.acquire()

    def __exit__(
        self, kind: Optional[Type[BaseException]], error: Optional[BaseException], trace: Optional[TracebackType]
    ) -> None:
        try:
            self.release()
        except GivenUp:
            # What went wrong before is told alone.
            if error is None:
                raise


class Lock(_Permits):
    """A lock, which one worker holds at a time among all who use the space.

        with Lock(space, "printer") as held:
            ...

    *A holder that died* keeps the lock, and nothing else is lost. The space can't tell a dead holder from a slow one,
    and no lock runs out. Somebody has to decide that the holder is dead: `give_up(holder())` sets the lock free,
    and the next holder's term is higher. If whoever gives it up dies meanwhile, anybody does the same once more.

    *A holder that was only slow* learns of it from `holds`, and at the end from GivenUp. Until then two may do what the
    lock guards. So name the term, `held.term`, in all that is done under it: what has seen a later one refuses it.

    *If asking raises Unanswered*, this worker's own tuple may be there: it asks for `holder`, and gives itself up.

    Each worker, and each thread, has an object of its own, and a name that no other has.
    """

    def __init__(self, space: Space, name: str, me: Optional[str] = None, *, timeout: float = 60.0) -> None:
        """`me` is the worker's name; without it one is made. A `with` waits for so many seconds."""
        super().__init__(space, [name], me, timeout)
        self.name = name

    def holder(self) -> Optional[Held]:
        """Who holds the lock, if anybody does."""
        return self.space.run(recipes.holder(self.name))

    def give_up(self, held: Held) -> bool:
        """Sets the lock free of a holder that is taken for dead. Gives whether it held the lock until now."""
        return self.space.run(recipes.give_up(self.name, held))


class Semaphore(_Permits):
    """Permits, which as many workers hold at a time: each is a lock, and a worker holds one that is free.

        with Semaphore(space, "printers", 3) as held:
            ...

    *A holder that died* keeps its permit, and no other. `give_up` sets it free, as that of a lock does.
    """

    def __init__(
        self, space: Space, name: str, permits: int, me: Optional[str] = None, *, timeout: float = 60.0
    ) -> None:
        """All who use it say the same number of permits. The rest is as for a lock."""
        if permits < 1:
            raise ValueError(f"a semaphore has one permit at least, and not {permits}")
        super().__init__(space, recipes.permit_names(name, permits), me, timeout)
        self.name = name

    def holders(self) -> List[Optional[Held]]:
        """Who holds each permit, or None where it is free."""
        return [self.space.run(recipes.holder(it)) for it in self._names]

    def give_up(self, permit: int, held: Held) -> bool:
        """Sets a permit free, by its place in `holders`. Gives whether this holder held it until now."""
        return self.space.run(recipes.give_up(self._names[permit], held))
