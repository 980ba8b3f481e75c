"""The same for asyncio: spaces and recipes whose calls are awaited.

    async with aio.local() as space:
        async with aio.Lock(space, "printer") as held:
            await space.out(("printed", held.term))

Each class is as the one of its name in `btspace`, whose page says what a dead holder costs. Tasks may share a space.
The calls of many tasks are under way at once, and are answered in their order.

A task that is cancelled while its call is under way doesn't hear the answer, but the call acts: an `inp` or a `take`
may have taken a tuple that nobody gets. A lock isn't lost so.
"""

import asyncio
from types import TracebackType
from typing import Any, Callable, List, Optional, Sequence, Type, TypeVar

from . import operations, recipes, waiting
from .conversation import CHILD, Conversation, one_line
from .errors import Error, GivenUp, NoAnswer
from .operations import Operation
from .recipes import Held, Leader, Setting, own_name
from .space import File, Program, connect_command, local_command
from .values import INT, Template, TupleValue, Value
from .waiting import Pause, Steps

__all__ = ["Barrier", "Config", "Election", "Lock", "Semaphore", "Space", "connect", "local"]

Result = TypeVar("Result")


# The longest answer tells 64 tuples, and none of their bytes takes more than four in a text.
_LONGEST_ANSWER = 1 << 20
# How many seconds a program that has closed its outputs has to end.
_SECONDS_TO_END = 5.0


class Space:
    """A space that a co-process serves, as `btspace.Space`. It runs within an `async with`."""

    def __init__(self, command: Sequence[str], *, timeout: float = 60.0) -> None:
        self.timeout = timeout
        self._command = command
        self._conversation = Conversation()
        self._child: Optional[asyncio.subprocess.Process] = None
        self._hearing: Optional["asyncio.Task[None]"] = None
        self._is_closed = False

    async def out(self, value: TupleValue) -> None:
        await self.perform(operations.out(value))

    async def rdp(self, template: Template) -> Optional[TupleValue]:
        return await self.perform(operations.rdp(template))

    async def inp(self, template: Template) -> Optional[TupleValue]:
        return await self.perform(operations.inp(template))

    async def cas(self, template: Template, value: TupleValue) -> bool:
        return await self.perform(operations.cas(template, value))

    async def rd_all(self, template: Template, most: int = operations.MOST_MATCHES) -> List[TupleValue]:
        return await self.perform(operations.rd_all(template, most))

    async def in_all(self, template: Template, most: int = operations.MOST_MATCHES) -> List[TupleValue]:
        return await self.perform(operations.in_all(template, most))

    async def upgrade(self) -> None:
        await self.perform(operations.upgrade())

    async def take(self, template: Template, timeout: float) -> TupleValue:
        return await self.run(waiting.until_found(operations.inp(template), timeout))

    async def read(self, template: Template, timeout: float) -> TupleValue:
        return await self.run(waiting.until_found(operations.rdp(template), timeout))

    async def perform(self, operation: "Operation[Result]") -> Result:
        """Makes one call."""
        try:
            return operation.answer(await asyncio.wait_for(self.submit(operation), self.timeout))
        # Before Python 3.11 this is no TimeoutError.
        except asyncio.TimeoutError:
            raise NoAnswer(f"no answer within {self.timeout} seconds to: {operation.line[:100]}") from None

    def submit(self, operation: "Operation[Any]") -> "asyncio.Future[str]":
        """Makes one call without waiting: its answer line comes as the result. Calls act in their order."""
        if self._child is None or self._child.stdin is None or self._hearing is None or self._is_closed:
            raise Error("this client is closed")
        asked = one_line(operation.line)
        answer: "asyncio.Future[str]" = asyncio.get_running_loop().create_future()
        self._conversation.waiting.append(answer)
        if self._hearing.done():
            self._conversation.end(self._child.returncode)
        elif not self._child.stdin.is_closing():
            self._child.stdin.write(asked)
        return answer

    async def run(self, steps: "Steps[Result]") -> Result:
        """Makes calls and pauses until the end of the steps, and gives what they return."""
        answer: Any = None
        try:
            while True:
                step = steps.send(answer)
                answer = await (asyncio.sleep(step.seconds) if isinstance(step, Pause) else self.perform(step))
        except StopIteration as end:
            return end.value

    async def _hear(self, child: asyncio.subprocess.Process) -> None:
        assert child.stdout is not None
        try:
            while line := await child.stdout.readline():
                self._conversation.hear(line)
            await asyncio.wait_for(child.wait(), _SECONDS_TO_END)
        except asyncio.TimeoutError:
            child.kill()
            await child.wait()
        finally:
            self._conversation.end(child.returncode)

    async def close(self, timeout: float = 5.0) -> None:
        """Waits for the answers that are due, and ends the process. After so many seconds the process is killed."""
        if self._child is None or self._child.stdin is None or self._hearing is None:
            return
        self._is_closed = True
        self._child.stdin.close()
        await asyncio.wait([self._hearing], timeout=timeout)
        if not self._hearing.done():
            self._child.kill()
            await asyncio.wait([self._hearing], timeout=_SECONDS_TO_END)

    async def __aenter__(self) -> "Space":
        self._child = await asyncio.create_subprocess_exec(*self._command, limit=_LONGEST_ANSWER, **CHILD)
        self._hearing = asyncio.ensure_future(self._hear(self._child))
        return self

    async def __aexit__(
        self, kind: Optional[Type[BaseException]], error: Optional[BaseException], trace: Optional[TracebackType]
    ) -> None:
        await self.close()


def local(program: Program = None, *, version: int = 1, timeout: float = 60.0) -> Space:
    """A space of its own, as `btspace.local`."""
    return Space(local_command(program, version), timeout=timeout)


def connect(
    hosts: File, keys: File, *, node: Program = None, program: Optional[str] = None, timeout: float = 60.0
) -> Space:
    """The space of a cluster, as `btspace.connect`."""
    return Space(connect_command(hosts, keys, node, program), timeout=timeout)


class _Permits:
    """What one worker holds of several locks: one at most."""

    def __init__(self, space: Space, names: List[str], me: Optional[str], timeout: float) -> None:
        self.space = space
        self.me = own_name() if me is None else me
        self.timeout = timeout
        self.held: Optional[Held] = None
        self._names = names
        self._place = 0

    async def acquire(self, timeout: Optional[float] = None) -> Held:
        if self.held is not None:
            raise Error(f"this worker holds {self._names[self._place]!r} already")
        seconds = self.timeout if timeout is None else timeout
        try:
            self._place, self.held = await self.space.run(recipes.acquire(self._names, self.me, seconds))
        except asyncio.CancelledError:
            # A call of the recipe may be under way. These come behind it.
            for name in self._names:
                self.space.submit(operations.inp(("lock", name, INT, self.me)))
            raise
        return self.held

    async def release(self) -> None:
        if self.held is None:
            raise Error(f"{self.me} holds nothing")
        held, self.held = self.held, None
        # It is let go of even if the task is cancelled now.
        await asyncio.shield(self.space.run(recipes.release(self._names[self._place], held)))

    async def holds(self) -> bool:
        return self.held is not None and await self.space.run(recipes.holds(self._names[self._place], self.held))

    async def __aenter__(self) -> Held:
        return await self.acquire()

    async def __aexit__(
        self, kind: Optional[Type[BaseException]], error: Optional[BaseException], trace: Optional[TracebackType]
    ) -> None:
        try:
            await self.release()
        except GivenUp:
            # What went wrong before is told alone.
            if error is None:
                raise


class Lock(_Permits):
    """A lock, as `btspace.Lock`."""

    def __init__(self, space: Space, name: str, me: Optional[str] = None, *, timeout: float = 60.0) -> None:
        super().__init__(space, [name], me, timeout)
        self.name = name

    async def holder(self) -> Optional[Held]:
        return await self.space.run(recipes.holder(self.name))

    async def give_up(self, held: Held) -> bool:
        return await self.space.run(recipes.give_up(self.name, held))


class Semaphore(_Permits):
    """Permits, as `btspace.Semaphore`."""

    def __init__(
        self, space: Space, name: str, permits: int, me: Optional[str] = None, *, timeout: float = 60.0
    ) -> None:
        super().__init__(space, recipes.permit_names(name, permits), me, timeout)
        self.name = name

    async def holders(self) -> List[Optional[Held]]:
        return [await self.space.run(recipes.holder(it)) for it in self._names]

    async def give_up(self, permit: int, held: Held) -> bool:
        return await self.space.run(recipes.give_up(self._names[permit], held))


class Barrier:
    """A barrier, as `btspace.Barrier`."""

    def __init__(self, space: Space, name: str, workers: Sequence[str], me: str, *, round: int = 1) -> None:
        self.workers = recipes.crew(workers, me)
        self.space = space
        self.name = name
        self.me = me
        self.round = round

    async def wait(self, timeout: float) -> int:
        await self.space.run(recipes.meet(self.name, self.round, self.workers, self.me, timeout))
        self.round += 1
        return self.round - 1

    async def arrive(self, worker: Optional[str] = None) -> None:
        await self.space.run(recipes.arrive(self.name, self.round, self.me if worker is None else worker))

    async def missing(self) -> List[str]:
        return await self.space.run(recipes.missing(self.name, self.round, self.workers))

    async def join(self) -> int:
        self.round = await self.space.run(recipes.latest_round(self.name))
        return self.round


class Election:
    """An election, as `btspace.Election`."""

    def __init__(self, space: Space, name: str, me: Optional[str] = None) -> None:
        self.space = space
        self.name = name
        self.me = own_name() if me is None else me

    async def leader(self) -> Optional[Leader]:
        return await self.space.run(recipes.leader(self.name))

    async def stand(self, instead_of: Optional[Leader] = None) -> Leader:
        return await self.space.run(recipes.stand(self.name, self.me, instead_of))

    async def leads(self, term: int) -> bool:
        return await self.leader() == Leader(term, self.me)


class Config:
    """A configuration, as `btspace.Config`."""

    def __init__(self, space: Space) -> None:
        self.space = space

    async def get(self, name: str) -> Optional[Setting]:
        return await self.space.run(recipes.setting(name))

    async def set(self, name: str, value: Value, *, timeout: float = 60.0) -> Setting:
        return await self.change(name, lambda _: value, timeout=timeout)

    async def begin(self, name: str, value: Value) -> Setting:
        return await self.space.run(recipes.begin(name, value))

    async def change(
        self, name: str, decide: Callable[[Optional[Setting]], Value], *, timeout: float = 60.0
    ) -> Setting:
        return await self.space.run(recipes.change(name, decide, timeout))
