"""Waiting, in a space whose calls don't wait: asking again, after pauses that grow and are drawn by lot.

What is made of several calls is written once, as a generator of steps. `Space.run` takes them one after another, and
`aio.Space.run` awaits them.
"""

import random
import time
from typing import Any, Generator, Iterator, NamedTuple, Optional, TypeVar, Union

from .errors import TimedOut
from .operations import Operation
from .values import TupleValue

__all__ = ["FIRST_PAUSE", "LONGEST_PAUSE", "Pause", "Steps", "next_pause", "pauses", "until_found"]

FIRST_PAUSE = 0.002
LONGEST_PAUSE = 0.25

Result = TypeVar("Result")


class Pause(NamedTuple):
    """A pause of so many seconds."""

    seconds: float


Steps = Generator[Union[Operation[Any], Pause], Any, Result]
"""Calls and pauses, one after another. Each call is sent its answer."""


def pauses(timeout: float) -> Iterator[Pause]:
    """Pauses that end with the timeout, in seconds: each from half as long to as long as a span that doubles.

    The lot keeps those who wait for one thing from asking at the same moments.
    """
    end = time.monotonic() + timeout
    span = FIRST_PAUSE
    while (left := end - time.monotonic()) > 0:
        yield Pause(min(left, span * random.uniform(0.5, 1.0)))
        span = min(2 * span, LONGEST_PAUSE)


def until_found(operation: "Operation[Optional[TupleValue]]", timeout: float) -> "Steps[TupleValue]":
    """Asks until a tuple is found. It asks once at least, and once more when the time is over."""
    waits = pauses(timeout)
    while True:
        found: Any = yield operation
        if found is not None:
            return found
        yield next_pause(waits, f"no tuple came for {operation.line} within {timeout} seconds")


def next_pause(waits: Iterator[Pause], missed: str) -> Pause:
    """The next pause. If the time is over, TimedOut is raised."""
    pause = next(waits, None)
    if pause is None:
        raise TimedOut(missed)
    return pause
