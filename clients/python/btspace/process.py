"""A co-process that threads share.

A line that is asked stands in a queue until its answer comes, and others may be asked meanwhile. Two threads of the
process's own write the lines and hear the answers. So an exception that comes to a caller in the midst of a call, as
KeyboardInterrupt does, can't part the lines from their answers.
"""

import subprocess
import threading
from concurrent.futures import Future
from concurrent.futures import TimeoutError as FutureTimeoutError
from queue import SimpleQueue
from typing import Iterator, List, NamedTuple, Optional, Sequence

from .conversation import CHILD, Conversation, one_line
from .errors import Error, NoAnswer

__all__ = ["Process"]

# How many lines are written at once at most.
_MOST_AT_ONCE = 256
# How many seconds a program that has closed its outputs has to end.
_SECONDS_TO_END = 5.0


class _Asked(NamedTuple):
    line: bytes
    answer: "Future[str]"


class Process:
    """A running program: `command` is the program and its words.

    It may write lines that are no answers, as a build does before it runs what it built. They are passed over, and the
    last ones are told if it ends.
    """

    def __init__(self, command: Sequence[str]) -> None:
        self._child = subprocess.Popen(command, **CHILD)
        self._asked: "SimpleQueue[Optional[_Asked]]" = SimpleQueue()
        self._conversation = Conversation()
        self._status: Optional[int] = None
        self._has_ended = threading.Event()
        self._is_closed = False
        for run in (self._write_lines, self._hear_lines):
            threading.Thread(target=run, name=f"btspace{run.__name__}", daemon=True).start()

    @property
    def pid(self) -> int:
        return self._child.pid

    def ask(self, line: str, timeout: float) -> str:
        """The answer to a line. Raises Refused, NoAnswer and ProcessEnded."""
        try:
            return self.submit(line).result(timeout)
        except FutureTimeoutError:
            raise NoAnswer(f"no answer within {timeout} seconds to: {line[:100]}") from None

    def submit(self, line: str) -> "Future[str]":
        """Asks a line without waiting for its answer, which will be the result of what this returns."""
        asked = _Asked(one_line(line), Future())
        if self._is_closed:
            raise Error("this client is closed")
        # So it can't be cancelled.
        asked.answer.set_running_or_notify_cancel()
        self._asked.put(asked)
        return asked.answer

    def close(self, timeout: float = 5.0) -> None:
        """Waits for the answers that are due, and ends the process. After so many seconds the process is killed."""
        if not self._is_closed:
            self._is_closed = True
            self._asked.put(None)
        if not self._has_ended.wait(timeout):
            self._child.kill()
            self._has_ended.wait(_SECONDS_TO_END)

    # ---- The thread that writes.

    def _write_lines(self) -> None:
        assert self._child.stdin is not None
        for some in self._take_asked():
            self._conversation.waiting.extend(it.answer for it in some)
            try:
                self._child.stdin.write(b"".join(it.line for it in some))
                self._child.stdin.flush()
            except OSError:
                pass  # Nobody reads any more. The other thread sees the process end.
            if self._has_ended.is_set():
                self._conversation.end(self._status)
        try:
            self._child.stdin.close()
        except OSError:
            pass

    def _take_asked(self) -> Iterator[List[_Asked]]:
        """What is asked, as much at a time as there is, until the process is closed."""
        while True:
            some: List[_Asked] = []
            while not some or (len(some) < _MOST_AT_ONCE and not self._asked.empty()):
                asked = self._asked.get()
                if asked is None:
                    yield some
                    return
                some.append(asked)
            yield some

    # ---- The thread that hears.

    def _hear_lines(self) -> None:
        assert self._child.stdout is not None
        try:
            with self._child.stdout as output:
                for line in output:
                    self._conversation.hear(line)
            self._status = self._child.wait(_SECONDS_TO_END)
        except subprocess.TimeoutExpired:
            self._child.kill()
            self._child.wait()
        finally:
            self._has_ended.set()
            self._conversation.end(self._status)
