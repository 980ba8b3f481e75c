"""The space of a cluster: real replicas on loopback, which end with the tests."""

import asyncio
import os
import shutil
import signal
import sys
import tempfile
import threading
import unittest
from pathlib import Path

import btspace
from btspace import INT, aio
from btspace.space import connect_command

from .support import PROGRAM, TOP, script

NODE = os.environ.get("BTSPACE_NODE")
# The seed of the cluster's addresses and faults, of which there are none here.
SEED = 1


class Words(unittest.TestCase):
    def test_command(self):
        command = connect_command(Path("hosts.toml"), "keys/c0.toml", "/usr/bin/btspace-node", "/usr/bin/btspace")
        wanted = "/usr/bin/btspace-node client --btspace /usr/bin/btspace hosts.toml keys/c0.toml"
        self.assertEqual(wanted.split(), command)

    def test_programs_of_the_environment(self):
        kept = {it: os.environ.pop(it) for it in ("BTSPACE", "BTSPACE_NODE") if it in os.environ}
        try:
            wanted = ["btspace-node", "client", "--btspace", "btspace", "h", "k"]
            self.assertEqual(wanted, connect_command("h", "k", None, None))
            os.environ.update(BTSPACE="/a b/btspace", BTSPACE_NODE="env node")
            wanted = ["env", "node", "client", "--btspace", "/a b/btspace", "h", "k"]
            self.assertEqual(wanted, connect_command("h", "k", None, None))
        finally:
            for it in ("BTSPACE", "BTSPACE_NODE"):
                os.environ.pop(it, None)
            os.environ.update(kept)

    def test_a_stand_in(self):
        node = script("import sys; sys.stdin.readline(); print(f'found ({len(sys.argv)})'); sys.stdin.read()")
        with btspace.connect("hosts.toml", "c0.toml", node=node) as space:
            self.assertEqual((6,), space.rdp((INT,)))


@unittest.skipUnless(NODE, "no btspace-node")
class Clusters(unittest.TestCase):
    """Four replicas. Each test is a client of its own, since a client's file is one session's at a time."""

    @classmethod
    def setUpClass(cls):
        sys.path.insert(0, str(TOP / "net" / "trials"))
        import cluster

        cls.room = Path(tempfile.mkdtemp(prefix="btspace-"))
        cls.addClassCleanup(shutil.rmtree, cls.room)
        programs = cluster.Programs(NODE, PROGRAM[0])
        cls.cluster = cluster.Cluster(programs, cls.room, SEED).__enter__()
        cls.addClassCleanup(cls.cluster.end)

    def files(self, number):
        return self.cluster.hosts_of(f"c{number}"), self.room / "keys" / f"c{number}.toml"

    def connect(self, number, **options):
        space = btspace.connect(*self.files(number), node=NODE, program=PROGRAM[0], **options)
        self.addCleanup(space.close)
        return space

    def test_calls(self):
        space = self.connect(1)
        space.out(("job", 1))
        self.assertEqual(("job", 1), space.rdp(("job", INT)))
        self.assertIs(space.cas(("job", INT), ("job", 2)), False)
        self.assertEqual([("job", 1)], space.rd_all(("job", INT)))
        self.assertEqual(("job", 1), space.take(("job", INT), timeout=30))
        self.assertIsNone(space.inp(("job", INT)))
        for call in (space.upgrade, lambda: space.in_all(("job", INT))):
            self.assertRaises(btspace.NotAllowed, call)

    def test_refusals(self):
        """Each number of a refused line, as the client's process tells it; and the next call is answered."""
        space = self.connect(2)
        wide = "out (" + "1 " * 33 + ")"
        for line, number in ((wide, 1), ("out (((((((((1)))))))))", 2), (f'out ("{"a" * 1021}")', 3), ("rpd (*)", 6)):
            with self.assertRaises(btspace.Refused) as caught:
                space.process.ask(line, 30)
            self.assertEqual(number, caught.exception.number)
        self.assertEqual(1, caught.exception.offset)
        self.assertIsNone(space.rdp(("nothing", INT)))

    def test_a_lock_between_clients(self):
        ann, ben = self.connect(3), self.connect(4)
        with btspace.Lock(ann, "printer", me="ann") as held:
            with self.assertRaises(btspace.TimedOut):
                btspace.Lock(ben, "printer", me="ben").acquire(timeout=0.5)
        self.assertEqual("ann", held.holder)
        with btspace.Lock(ben, "printer", me="ben") as held:
            self.assertEqual(("ben", held), (held.holder, btspace.Lock(ann, "printer").holder()))

    def test_threads_share_a_client(self):
        space = self.connect(5)
        done = []

        def put(number):
            space.out(("of thread", number))
            done.append(space.inp(("of thread", number)))

        threads = [threading.Thread(target=put, args=(number,)) for number in range(8)]
        for it in threads:
            it.start()
        for it in threads:
            it.join(60)
        self.assertEqual({("of thread", number) for number in range(8)}, set(done))

    def test_asyncio(self):
        async def run():
            async with aio.connect(*self.files(6), node=NODE, program=PROGRAM[0]) as space:
                await space.out(("task", 1))
                async with aio.Lock(space, "plotter", me="cal") as held:
                    self.assertEqual("cal", held.holder)
                return await space.take(("task", INT), timeout=30)

        self.assertEqual(("task", 1), asyncio.run(run()))

    def test_one_file_is_one_session(self):
        first, second = self.connect(7), self.connect(7)
        self.assertIsNone(first.rdp(("nothing", INT)))
        self.assertRaises(btspace.ProcessEnded, second.rdp, ("nothing", INT))
        # A session that was killed lets go of the file, and the next one goes on.
        os.kill(first.process.pid, signal.SIGKILL)
        self.assertRaises(btspace.ProcessEnded, first.rdp, ("nothing", INT))
        self.assertIsNone(self.connect(7).rdp(("nothing", INT)))

    def test_no_replica_answers(self):
        hosts = self.room / "nobody.toml"
        hosts.write_text('replicas = ["127.0.0.1:1", "127.0.0.1:2", "127.0.0.1:3", "127.0.0.1:4"]\n')
        space = btspace.connect(hosts, self.room / "keys" / "c0.toml", node=NODE, program=PROGRAM[0], timeout=0.5)
        self.assertRaises(btspace.NoAnswer, space.rdp, ("nothing", INT))
        space.process.close(timeout=0.5)
