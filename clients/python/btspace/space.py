"""A space, as a program calls it."""

import os
import shlex
import time
from concurrent.futures import Future
from types import TracebackType
from typing import Any, List, Optional, Sequence, Type, TypeVar, Union

from . import operations, waiting
from .operations import Operation
from .process import Process
from .values import Template, TupleValue
from .waiting import Pause, Steps

__all__ = ["Program", "Space", "connect", "connect_command", "local", "local_command"]

Result = TypeVar("Result")
Program = Union[str, Sequence[str], None]
# A name of a file.
File = Union[str, "os.PathLike[str]"]


class Space:
    """A space that a co-process serves: `command` is the program and its words.

    Threads may share one: their calls stand in one queue. Each call takes `timeout` seconds at most, or NoAnswer is
    raised. Use it in a `with`, or call `close`. All calls raise the exceptions of `btspace.errors`.
    """

    def __init__(self, command: Sequence[str], *, timeout: float = 60.0) -> None:
        self.timeout = timeout
        self.process = Process(command)

    def out(self, value: TupleValue) -> None:
        """Puts a tuple. If there is no room, Full is raised."""
        self.perform(operations.out(value))

    def rdp(self, template: Template) -> Optional[TupleValue]:
        """Reads the oldest tuple that matches, or gives None."""
        return self.perform(operations.rdp(template))

    def inp(self, template: Template) -> Optional[TupleValue]:
        """Takes the oldest tuple that matches away, or gives None."""
        return self.perform(operations.inp(template))

    def cas(self, template: Template, value: TupleValue) -> bool:
        """Puts the tuple unless some tuple matches the template, and gives whether it was put.

        Of several who call it with a template that matches all their tuples, one is given True. If there is no room for
        the tuple, Full is raised.
        """
        return self.perform(operations.cas(template, value))

    def rd_all(self, template: Template, most: int = operations.MOST_MATCHES) -> List[TupleValue]:
        """Reads the oldest tuples that match, 64 at most."""
        return self.perform(operations.rd_all(template, most))

    def in_all(self, template: Template, most: int = operations.MOST_MATCHES) -> List[TupleValue]:
        """Takes the oldest tuples that match away, 64 at most. A space of version 1 refuses it: NotAllowed."""
        return self.perform(operations.in_all(template, most))

    def upgrade(self) -> None:
        """Makes the space one of version 2, for all who use it. If this isn't client 0, NotAllowed is raised."""
        self.perform(operations.upgrade())

    def take(self, template: Template, timeout: float) -> TupleValue:
        """Takes the oldest tuple that matches away, as soon as there is one. After so many seconds TimedOut is raised.

        The space has no calls that wait, so this asks again and again. The pauses grow and are drawn by lot. Of several
        who wait for one tuple one gets it, and nobody is promised a turn.
        """
        return self.run(waiting.until_found(operations.inp(template), timeout))

    def read(self, template: Template, timeout: float) -> TupleValue:
        """Reads the oldest tuple that matches, as soon as there is one, as `take` does.

        A tuple that comes and goes between two questions is missed.
        """
        return self.run(waiting.until_found(operations.rdp(template), timeout))

    def perform(self, operation: "Operation[Result]") -> Result:
        """Makes one call."""
        return operation.answer(self.process.ask(operation.line, self.timeout))

    def submit(self, operation: "Operation[Any]") -> "Future[str]":
        """Makes one call without waiting: its answer line comes as the result. Calls act in their order."""
        return self.process.submit(operation.line)

    def run(self, steps: "Steps[Result]") -> Result:
        """Makes calls and pauses until the end of the steps, and gives what they return."""
        answer: Any = None
        try:
            while True:
                step = steps.send(answer)
                answer = time.sleep(step.seconds) if isinstance(step, Pause) else self.perform(step)
        except StopIteration as end:
            return end.value

    def close(self) -> None:
        """Waits for the answers that are due, and ends the process."""
        self.process.close()

    def __enter__(self) -> "Space":
        return self

    def __exit__(
        self, kind: Optional[Type[BaseException]], error: Optional[BaseException], trace: Optional[TracebackType]
    ) -> None:
        self.close()


def local(program: Program = None, *, version: int = 1, timeout: float = 60.0) -> Space:
    """A space of its own, whose process ends with it: for one program's threads, and to try programs.

    `program` is the path of btspace, or that and words before `local`. Without it the environment variable BTSPACE says
    it, and without that it is found on the PATH. `version` is the version with which the space begins, 1 or 2.
    """
    return Space(local_command(program, version), timeout=timeout)


def connect(
    hosts: File, keys: File, *, node: Program = None, program: Optional[str] = None, timeout: float = 60.0
) -> Space:
    """The space of a cluster, called as the client whose file of keys this is.

    `hosts` is the file that tells where the replicas listen, and `keys` the client's file, under the name that `btspace
    keys` gave it: docs/operating.md has both. Nobody else may use this file at the same time. A call is answered once enough replicas
    agree; until they can be reached it waits, and NoAnswer comes in the end.

    `node` is the path of btspace-node, or that and words before `client`. Without it the environment variable
    BTSPACE_NODE says it, and without that it is found on the PATH. `program` is the path of btspace. Without it BTSPACE
    says it, and without that it is found on the PATH.
    """
    return Space(connect_command(hosts, keys, node, program), timeout=timeout)


def local_command(program: Program, version: int) -> List[str]:
    # It goes on after a refused line, so that one caller's fault doesn't end the space of all.
    return [*_words(program, "BTSPACE", "btspace"), "local", "--keep-going", "--space", str(version), "-"]


def connect_command(hosts: File, keys: File, node: Program, program: Optional[str]) -> List[str]:
    child = os.environ.get("BTSPACE", "btspace") if program is None else program
    words = _words(node, "BTSPACE_NODE", "btspace-node")
    return [*words, "client", "--btspace", child, os.fspath(hosts), os.fspath(keys)]


def _words(program: Program, variable: str, name: str) -> List[str]:
    if program is None:
        program = shlex.split(os.environ.get(variable, name))
    return [program] if isinstance(program, str) else [*program]
