"""The asyncio form."""

import asyncio
import logging
import unittest

import btspace
from btspace import INT, TimedOut, aio

from .support import PROGRAM, script

# Tests run in asyncio's debug mode, which tells of each step that takes long.
logging.getLogger("asyncio").setLevel(logging.ERROR)


class Asyncio(unittest.IsolatedAsyncioTestCase):
    async def asyncSetUp(self):
        self.space = await aio.local(PROGRAM).__aenter__()

    async def asyncTearDown(self):
        await self.space.close()

    async def test_calls(self):
        space = self.space
        await space.out(("job", 1))
        self.assertEqual(("job", 1), await space.rdp(("job", INT)))
        self.assertEqual([("job", 1)], await space.rd_all(("job", INT)))
        self.assertIs(await space.cas(("job", INT), ("job", 2)), False)
        self.assertEqual(("job", 1), await space.inp(("job", INT)))
        self.assertIsNone(await space.inp(("job", INT)))
        with self.assertRaises(btspace.NotAllowed):
            await space.in_all(())
        await space.upgrade()
        self.assertEqual([], await space.in_all(()))
        with self.assertRaises(btspace.TooLong):
            await space.out(("a" * 1024,))

    async def test_many_tasks(self):
        await asyncio.gather(*(self.space.out((number, -number)) for number in range(500)))
        found = await asyncio.gather(*(self.space.inp((number, INT)) for number in range(500)))
        self.assertEqual([(number, -number) for number in range(500)], found)

    async def test_waiting(self):
        with self.assertRaises(TimedOut):
            await self.space.take(("job", INT), 0.05)
        taking = asyncio.ensure_future(self.space.take(("job", INT), 60))
        await asyncio.sleep(0.01)
        await self.space.out(("job", 1))
        self.assertEqual(("job", 1), await taking)
        await self.space.out(("job", 2))
        self.assertEqual(("job", 2), await self.space.read(("job", INT), 0))

    async def test_locks(self):
        inside = 0

        async def work(number):
            nonlocal inside
            async with aio.Semaphore(self.space, "printers", 1, str(number)) as held:
                inside += 1
                self.assertEqual((1, str(number)), (inside, held.holder))
                await self.space.rdp(())
                inside -= 1

        await asyncio.gather(*map(work, range(6)))
        self.assertEqual([None], await aio.Semaphore(self.space, "printers", 1).holders())

    async def test_a_holder_that_died(self):
        ann, ben = aio.Lock(self.space, "printer", "ann"), aio.Lock(self.space, "printer", "ben")
        held = await ann.acquire()
        with self.assertRaises(TimedOut):
            await ben.acquire(0.05)
        self.assertTrue(await ben.give_up(await ben.holder()))
        self.assertEqual(held.term + 1, (await ben.acquire(0.05)).term)
        self.assertFalse(await ann.holds())
        with self.assertRaises(btspace.GivenUp):
            await ann.release()

    async def test_a_task_that_is_cancelled_leaves_no_lock(self):
        for pause in (0, 0.001, 0.01):
            lock = aio.Lock(self.space, "printer", "ann")
            asking = asyncio.ensure_future(lock.acquire())
            await asyncio.sleep(pause)
            asking.cancel()
            try:
                await asking
            except asyncio.CancelledError:
                self.assertIsNone(lock.held)
            else:
                await lock.release()  # It was held already.
            async with aio.Lock(self.space, "printer", "ben", timeout=60):
                pass

    async def test_others(self):
        crew = ("ann", "ben")
        barriers = [aio.Barrier(self.space, "start", crew, it) for it in crew]
        self.assertEqual([1, 1], await asyncio.gather(*(it.wait(60) for it in barriers)))
        await barriers[0].arrive()
        self.assertEqual((["ben"], 2), (await barriers[0].missing(), await barriers[1].join()))
        elections = [aio.Election(self.space, "scheduler", it) for it in crew]
        leader = await elections[0].stand()
        self.assertEqual([True, False], [await it.leads(1) for it in elections])
        self.assertEqual(btspace.Leader(2, "ben"), await elections[1].stand(instead_of=leader))
        config = aio.Config(self.space)
        self.assertEqual(100, (await config.begin("limit", 100)).value)
        await asyncio.gather(*(config.change("limit", lambda before: max(before.value, 300)) for _ in range(8)))
        self.assertEqual(300, (await config.get("limit")).value)
        self.assertEqual(7, (await config.set("limit", 7)).value)


class Ends(unittest.IsolatedAsyncioTestCase):
    async def test_answers_that_were_given_are_not_lost(self):
        program = """
            import sys
            for _ in range(3): sys.stdin.readline()
            sys.stdout.write("done\\ndo")
            sys.exit(7)
        """
        async with aio.Space(script(program)) as space:
            answers = await asyncio.gather(*(space.out((number,)) for number in range(3)), return_exceptions=True)
            self.assertIsNone(answers[0])
            self.assertEqual([7, 7], [it.status for it in answers[1:]])
            with self.assertRaises(btspace.ProcessEnded):
                await space.out((4,))

    async def test_a_program_that_stands_still(self):
        async with aio.Space(script("import time; time.sleep(600)"), timeout=0.1) as space:
            with self.assertRaises(btspace.NoAnswer):
                await space.rdp(())
            late = space.submit(btspace.operations.rdp(()))
            await space.close(timeout=0.1)
            self.assertIsInstance(late.exception(), btspace.ProcessEnded)
        with self.assertRaises(btspace.Error):
            await space.rdp(())

    async def test_a_late_answer_is_passed_over(self):
        program = """
            import sys, time
            for number, line in enumerate(sys.stdin):
                if number == 0: sys.stdin.readline(); time.sleep(1); print("absent")
                print("done")
        """
        async with aio.Space(script(program), timeout=0.5) as space:
            with self.assertRaises(btspace.NoAnswer):
                await space.rdp(())
            space.timeout = 60
            await space.out((1,))

    async def test_no_program(self):
        with self.assertRaises(FileNotFoundError):
            async with aio.Space(["/nothing/at/all"]):
                pass
