"""What can go wrong, as a hierarchy of exceptions.

    Error
      Full              the space has no room: nothing was put
      Refused           nothing was done, for the reason that `number` names
        TooManyFields   1
        TooDeep         2
        TooLong         3
        BadByte         6
        NotAllowed      the space itself answered `refused`, which has no number
      Unanswered        nobody knows whether the operation acts
        NoAnswer        the answer didn't come in time
        ProcessEnded    the process is gone
        BadAnswer       what came is no answer
      TimedOut          what was waited for didn't come in time
      GivenUp           somebody else was given the lock

The numbers are those of docs/formats.md.
"""

from typing import Optional

__all__ = [
    "BadAnswer",
    "BadByte",
    "Error",
    "Full",
    "GivenUp",
    "NoAnswer",
    "NotAllowed",
    "ProcessEnded",
    "Refused",
    "TimedOut",
    "TooDeep",
    "TooLong",
    "TooManyFields",
    "Unanswered",
    "refusal",
]


class Error(Exception):
    """Each exception of this package is one."""


class Full(Error):
    """The space has no room for one more tuple, and nothing was put.

    A space of version 1 holds 8,192 tuples, one of version 2 holds 12,288.
    """


class Refused(Error):
    """Nothing was done.

    `number` is the number of the refusal, or None if it has none; `reason` says why in words.
    """

    number: Optional[int] = None

    def __init__(self, reason: str) -> None:
        super().__init__(reason)
        self.reason = reason

    def __str__(self) -> str:
        return self.reason if self.number is None else f"refused {self.number}: {self.reason}"


class TooManyFields(Refused):
    """A tuple or a template has more than 32 fields, at whatever level."""

    number = 1


class TooDeep(Refused):
    """A tuple or a template has more than 8 levels. A flat one has one level."""

    number = 2


class TooLong(Refused):
    """The encoding of a tuple or a template has more than 1,024 bytes."""

    number = 3


class BadByte(Refused):
    """No line says this: a number is out of range, a text isn't UTF-8, or a line is none of an operation.

    `offset` is the first byte that can't go on, if the program told it.
    """

    number = 6

    def __init__(self, reason: str, offset: Optional[int] = None) -> None:
        super().__init__(reason)
        self.offset = offset


class NotAllowed(Refused):
    """The space answered `refused`, and stays as it was.

    A space of version 1 refuses wide numbers and `in_all`. Each space refuses an `upgrade` that isn't client 0's.
    """


class Unanswered(Error):
    """No answer came. The operation may have acted, may act yet, or never acts."""


class NoAnswer(Unanswered):
    """The answer didn't come in time. When it comes it is passed over, and later calls are answered as ever."""


class ProcessEnded(Unanswered):
    """The process is gone, and the space with it if the process had the space.

    `status` is its exit status, negative for a signal, or None if it had to be killed; `said` is what it said last.
    Answers that it had given before were given to their calls.
    """

    def __init__(self, status: Optional[int], said: str) -> None:
        how = "was killed" if status is None else f"ended by signal {-status}" if status < 0 else f"ended with {status}"
        super().__init__(f"the process {how}" + (f": {said}" if said else ""))
        self.status = status
        self.said = said


class BadAnswer(Unanswered):
    """The process wrote a line that is no answer to the operation."""


class TimedOut(Error):
    """What was waited for didn't come in time. Nothing was taken, and no lock is held."""


class GivenUp(Error):
    """Somebody thought that this holder is dead, and gave it up. It holds the lock no more."""


_NUMBERED = {kind.number: kind for kind in (TooManyFields, TooDeep, TooLong)}


def refusal(number: int, reason: str, offset: Optional[int] = None) -> Refused:
    """The exception that stands for the refusal of this number."""
    if number == BadByte.number:
        return BadByte(reason, offset)
    kind = _NUMBERED.get(number)
    if kind is not None:
        return kind(reason)
    other = Refused(reason)
    other.number = number
    return other
