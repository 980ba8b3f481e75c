"""Elections and configurations, by the recipes of docs/recipes.md."""

from typing import Callable, Optional

from . import recipes
from .recipes import Leader, Setting, own_name
from .space import Space
from .values import Value

__all__ = ["Config", "Election"]


class Election:
    """Who leads: one worker at most in each term, and the highest term counts.

        election = Election(space, "scheduler", me="ann")
        if election.stand().name == election.me:
            ...

    *A leader that died* leads until somebody finds it dead and stands in its place: `stand(instead_of=leader)`. Nothing
    is lost, and the next term begins. A candidate that dies meanwhile costs nothing.

    *A leader that was only slow* learns of the next one when it looks (`leads`). So name the term in all that the
    leader orders: whoever has seen a higher one passes it over.
    """

    def __init__(self, space: Space, name: str, me: Optional[str] = None) -> None:
        """`me` is the worker's name; without it one is made."""
        self.space = space
        self.name = name
        self.me = own_name() if me is None else me

    def leader(self) -> Optional[Leader]:
        """Who leads, if anybody was ever elected."""
        return self.space.run(recipes.leader(self.name))

    def stand(self, instead_of: Optional[Leader] = None) -> Leader:
        """Stands for the next term if nobody leads, or this leader, who is taken for dead. Gives who leads then."""
        return self.space.run(recipes.stand(self.name, self.me, instead_of))

    def leads(self, term: int) -> bool:
        """Whether this worker led in this term a moment ago."""
        return self.leader() == Leader(term, self.me)


class Config:
    """Settings with versions, from 1. A change that is made has replaced exactly the version that it had read.

        config = Config(space)
        config.change("limit", lambda before: max(before.value, 300) if before else 300)

    *A writer that died* leaves one version too many, which the next change takes away. A setting that was given has a
    value wherever a writer dies.

    A change that came too late may count for a moment, before it is taken back and decided again. Another change may
    have read it then. So what is decided twice has to do no harm: a value that is set, or an element of a set. A
    counter is none of that: what has to be added exactly once wants a tuple of its own.
    """

    def __init__(self, space: Space) -> None:
        self.space = space

    def get(self, name: str) -> Optional[Setting]:
        """The setting's version and value, if it has one."""
        return self.space.run(recipes.setting(name))

    def set(self, name: str, value: Value, *, timeout: float = 60.0) -> Setting:
        """Gives the setting this value, whatever it was."""
        return self.change(name, lambda _: value, timeout=timeout)

    def begin(self, name: str, value: Value) -> Setting:
        """Gives the setting this value unless it has one, and gives what it has then."""
        return self.space.run(recipes.begin(name, value))

    def change(
        self, name: str, decide: Callable[[Optional[Setting]], Value], *, timeout: float = 60.0
    ) -> Setting:
        """Gives the setting the value that `decide` makes of the present one, and gives the version that it put.

        If another change came first, it decides again. After so many seconds TimedOut is raised.
        """
        return self.space.run(recipes.change(name, decide, timeout))
