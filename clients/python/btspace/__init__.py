"""A client of btspace, a Linda tuple space.

    import btspace

    with btspace.local() as space:
        space.out(("job", 1))
        space.inp(("job", btspace.INT))    # ("job", 1)

        with btspace.Lock(space, "printer") as held:
            print("term", held.term)

`local` starts a space of its own, in a process that ends with it. `connect` calls the space of a cluster. A `Space` is
over any program that answers each line with a line. `btspace.aio` has the same for asyncio.
"""

from .barriers import Barrier
from .errors import (
    BadAnswer,
    BadByte,
    Error,
    Full,
    GivenUp,
    NoAnswer,
    NotAllowed,
    ProcessEnded,
    Refused,
    TimedOut,
    TooDeep,
    TooLong,
    TooManyFields,
    Unanswered,
)
from .locks import Lock, Semaphore
from .recipes import Held, Leader, Setting
from .registers import Config, Election
from .space import Space, connect, local
from .values import ANY, BOOL, BYTES, INT, TEXT, TUPLE, WIDE, Field, Formal, Template, TupleValue, Value, Wide

__all__ = [
    "ANY",
    "BOOL",
    "BYTES",
    "BadAnswer",
    "BadByte",
    "Barrier",
    "Config",
    "Election",
    "Error",
    "Field",
    "Formal",
    "Full",
    "GivenUp",
    "Held",
    "INT",
    "Leader",
    "Lock",
    "NoAnswer",
    "NotAllowed",
    "ProcessEnded",
    "Refused",
    "Semaphore",
    "Setting",
    "Space",
    "TEXT",
    "TUPLE",
    "Template",
    "TimedOut",
    "TooDeep",
    "TooLong",
    "TooManyFields",
    "TupleValue",
    "Unanswered",
    "Value",
    "WIDE",
    "Wide",
    "connect",
    "local",
]
