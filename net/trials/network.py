"""A network between the processes of a test: each link that is dialled goes through a port of this one.

It can be cut, held in one direction, and disturbed: frames are then delayed each by its own time, so that they
overtake each other, and are lost or repeated. It has no part in links that use TLS, but to cut them.
"""

import asyncio
import random
import threading
from typing import NamedTuple

FRAME = 1
# So many bytes are copied at once where records aren't looked at.
PIECE = 65536


class Faults(NamedTuple):
    """What happens to the frames of a direction: the most seconds of a delay, and which parts are lost and repeated."""

    delay: float = 0.0
    lost: float = 0.0
    repeated: float = 0.0


class Way:
    """A direction of a route."""

    def __init__(self):
        self.is_open = asyncio.Event()
        self.is_open.set()
        self.faults = None


class Route:
    """The way of links that one party dials to a replica, and back."""

    def __init__(self, target):
        self.target, self.is_cut, self.links = target, False, set()
        self.there, self.back = Way(), Way()


class Straight:
    """No network between: parties dial each other on loopback."""

    def address(self, _dialler, _replica, target):
        return f"127.0.0.1:{target}"

    def words(self, _party):
        return []

    def inside(self, _party, act):
        return act()

    def end(self):
        pass


class Network(Straight):
    def __init__(self, seed, has_records=True):
        self.random, self.has_records, self.links_of = random.Random(seed), has_records, {}
        self.loop = asyncio.new_event_loop()
        self.thread = threading.Thread(target=self.loop.run_forever, daemon=True)
        self.thread.start()

    def do(self, work):
        """Runs a coroutine in the network's thread, and gives what it gives."""
        return asyncio.run_coroutine_threadsafe(work, self.loop).result(10)

    def address(self, dialler, replica, target):
        """Where a party dials a replica that listens at the target: a replica itself doesn't dial."""
        if dialler == f"r{replica}":
            return f"127.0.0.1:{target}"

        async def begin():
            route = self.links_of[dialler, replica] = Route(target)
            server = await asyncio.start_server(lambda *link: self.carry(route, *link), "127.0.0.1", 0)
            return server.sockets[0].getsockname()[1]

        return f"127.0.0.1:{self.do(begin())}"

    def routes(self):
        return list(self.links_of)

    async def carry(self, route, reader, writer):
        if route.is_cut:
            return writer.close()
        try:
            far_reader, far_writer = await asyncio.open_connection("127.0.0.1", route.target)
        except OSError:
            return writer.close()
        link = writer, far_writer
        route.links.add(link)
        copy = self.copy_records if self.has_records else self.copy_bytes
        both = copy(reader, far_writer, route.there), copy(far_reader, writer, route.back)
        try:
            await asyncio.wait([asyncio.ensure_future(it) for it in both], return_when=asyncio.FIRST_COMPLETED)
        finally:
            route.links.discard(link)
            for it in link:
                it.close()

    async def copy_bytes(self, reader, writer, way):
        try:
            while piece := await reader.read(PIECE):
                await way.is_open.wait()
                writer.write(piece)
                await writer.drain()
        except OSError:
            pass

    async def copy_records(self, reader, writer, way):
        try:
            while True:
                head = await reader.readexactly(4)
                body = await reader.readexactly(int.from_bytes(head, "big"))
                await way.is_open.wait()
                if way.faults and body[0] == FRAME:
                    self.disturb_record(head + body, writer, way.faults)
                else:
                    writer.write(head + body)
                await writer.drain()
        except (OSError, asyncio.IncompleteReadError):
            pass

    def disturb_record(self, record, writer, faults):
        copies = 0 if self.random.random() < faults.lost else 2 if self.random.random() < faults.repeated else 1
        for _ in range(copies):
            self.loop.call_later(self.random.uniform(0, faults.delay), writer.write, record)

    def change(self, pairs, act):
        async def all_of_them():
            for pair in pairs:
                act(self.links_of[pair])

        self.do(all_of_them())

    def cut(self, pairs):
        """Ends the links of these routes, and lets none begin."""

        def act(route):
            route.is_cut = True
            for it in [it for link in route.links for it in link]:
                it.close()

        self.change(pairs, act)

    def heal(self, pairs):
        """Takes back all that was done to these routes."""

        def act(route):
            route.is_cut = False
            for way in (route.there, route.back):
                way.is_open.set()
                way.faults = None

        self.change(pairs, act)

    def hold(self, pairs):
        """What goes from the dialler to the replica waits, until the route is healed. The other direction stays as it
        is."""
        self.change(pairs, lambda route: route.there.is_open.clear())

    def disturb(self, pairs, faults):
        def act(route):
            route.there.faults = route.back.faults = faults

        self.change(pairs, act)

    def end(self):
        async def leave():
            # Links that are cancelled have nothing to tell.
            self.loop.set_exception_handler(lambda *_: None)
            for it in asyncio.all_tasks() - {asyncio.current_task()}:
                it.cancel()

        self.do(leave())
        self.loop.call_soon_threadsafe(self.loop.stop)
        self.thread.join(10)
