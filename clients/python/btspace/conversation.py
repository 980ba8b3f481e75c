"""A conversation with a program that answers each line with a line, in their order.

In place of an answer a refusal may come. `btspace local --keep-going` tells it on standard error, by two lines:

    line 2: refused 6 at byte 5
    no line begins so: out (*

So the program has one pipe for both outputs, where all stands in the order in which it was written. A client of a
cluster tells a refusal on one line, in place of the answer: `! line 2: refused 6 at byte 5`.

The bytes are moved by `process` with threads, and by `aio` in an event loop.
"""

import asyncio
import re
import subprocess
from collections import deque
from concurrent.futures import Future
from typing import Any, Deque, Dict, Match, Optional, Union

from .errors import ProcessEnded, Unanswered, refusal

__all__ = ["CHILD", "Answer", "Conversation", "one_line"]

Answer = Union["Future[str]", "asyncio.Future[str]"]

# How a program is started. It is in a session of its own, so that ^C at the terminal doesn't end it: whoever is
# interrupted may still want to let go of a lock.
CHILD: Dict[str, Any] = {
    "stdin": subprocess.PIPE,
    "stdout": subprocess.PIPE,
    "stderr": subprocess.STDOUT,
    "start_new_session": True,
}

_ANSWER = re.compile(r"done|absent|full|refused|found \(.*\)|swapped (true|false)|all \d+( \(.*\))?")
_REFUSED = re.compile(r"line \d+: refused (\d+)(?: at byte (\d+))?")
_FAULT = re.compile(r"! (?:(?:line \d+: )?refused (\d+)(?: at byte (\d+))?)?(.*)")
# How many lines that are no answers are kept, to tell what the program said before it ended.
_KEPT = 20


class Conversation:
    """The calls that wait for an answer, the oldest first.

    One thread may add to them while another hears the program.
    """

    def __init__(self) -> None:
        self.waiting: Deque[Answer] = deque()
        self._refused: Optional[Match[str]] = None
        self._said: Deque[str] = deque(maxlen=_KEPT)

    def hear(self, line: bytes) -> None:
        """Hands an answer or a refusal to the call that waits longest, and keeps a line that is neither.

        What has no line end is no whole line, and so it is no answer.
        """
        text = line.rstrip(b"\n").decode(errors="replace")
        if self._refused is not None:
            self._refuse(self._refused, text)
            self._refused = None
        elif not self.waiting or not line.endswith(b"\n"):
            self._said.append(text)
        elif _ANSWER.fullmatch(text):
            self._give(text)
        elif (fault := _FAULT.fullmatch(text)) is not None:
            self._refuse(fault, fault[3])
        elif (refused := _REFUSED.fullmatch(text)) is not None:
            self._refused = refused
        else:
            self._said.append(text)

    def end(self, status: Optional[int]) -> None:
        """Tells all who wait that the program is gone. It may be called again, when others have come to wait."""
        while self.waiting:
            try:
                self._give(ProcessEnded(status, "\n".join(self._said)))
            except IndexError:
                return  # Another thread told the last one.

    def _refuse(self, refused: Match[str], reason: str) -> None:
        if refused[1] is None:
            self._give(Unanswered(reason))
        else:
            offset = None if refused[2] is None else int(refused[2])
            self._give(refusal(int(refused[1]), reason.strip(": "), offset))

    def _give(self, answer: Union[str, Exception]) -> None:
        waiting = self.waiting.popleft()
        # A task that was cancelled waits no more, but its answer came all the same.
        if waiting.done():
            return
        if isinstance(answer, str):
            waiting.set_result(answer)
        else:
            waiting.set_exception(answer)


def one_line(line: str) -> bytes:
    """The bytes of a line that is answered: the program would skip an empty one and a comment."""
    if "\n" in line or line.startswith("#") or not line.strip(" \r"):
        raise ValueError(f"one line of an operation is wanted, and not {line[:100]!r}")
    return line.encode() + b"\n"
