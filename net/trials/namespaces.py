"""Parties with networks of their own: each replica has a network namespace, and all clients have one. A bridge in one
more joins them. What is cut here vanishes on its way, and no link is told of it.

A namespace lives as long as its processes do. So nothing of it is left behind them, even after a kill.
"""

import ctypes
import os
import shutil
import subprocess
import threading
from functools import cache
from pathlib import Path

from cluster import ENDS_TOO, HERE, Trouble, await_that

# By this setns is told that it is given a network (CLONE_NEWNET).
NEW_NETWORK = 0x40000000
# The name of the namespace of all clients.
CLIENTS = "c"


def ran(words, text=""):
    """Runs a command of the system's."""
    ended = subprocess.run(words, input=text, capture_output=True, text=True)
    if ended.returncode:
        raise Trouble(ended.stderr.strip() or f"{words[0]}: status {ended.returncode}")


class Namespace:
    """A network namespace, and the process that holds it."""

    def __init__(self):
        words = [*ENDS_TOO, "unshare", "--net", "sleep", "infinity"]
        self.holder = subprocess.Popen(words, stdin=subprocess.DEVNULL, stderr=subprocess.PIPE, start_new_session=True)
        self.path = f"/proc/{self.holder.pid}/ns/net"
        try:
            await_that(self.is_apart, "a network namespace", 10)
        except BaseException:
            self.end()
            raise

    def is_apart(self):
        if self.holder.poll() is not None:
            raise Trouble(self.holder.stderr.read().decode().strip())
        return os.readlink(self.path) != os.readlink("/proc/self/ns/net")

    def words(self):
        """What stands before the words of a process that is to be inside."""
        return ["nsenter", f"--net={self.path}", "--"]

    def ip(self, *lines):
        ran([*self.words(), "ip", "-batch", "-"], "\n".join([*lines, ""]))

    def inside(self, act):
        """What an act gives that runs inside, in a thread of its own."""
        given = []

        def run():
            with open(self.path) as namespace:
                if ctypes.CDLL(None, use_errno=True).setns(namespace.fileno(), NEW_NETWORK):
                    raise OSError(ctypes.get_errno(), "setns")
            given.append(act())

        thread = threading.Thread(target=run)
        thread.start()
        thread.join()
        if not given:
            raise Trouble("it failed inside of a namespace")
        return given[0]

    def end(self):
        self.holder.kill()
        self.holder.wait()
        self.holder.stderr.close()


class Namespaces:
    """The namespaces of so many replicas and of the clients."""

    def __init__(self, count):
        self.parties, self.places, self.lost = {}, {}, set()
        self.bridge = Namespace()
        try:
            self.bridge.ip("link add bridge type bridge", "link set bridge up")
            for place, name in enumerate([*(f"r{it}" for it in range(count)), CLIENTS]):
                self.parties[name], self.places[name] = Namespace(), place
                self.join(name)
        except BaseException:
            self.end()
            raise

    def join(self, name):
        """Joins a party to the bridge."""
        party, place = self.parties[name], self.places[name]
        self.bridge.ip(
            f"link add party{place} type veth peer name eth0 netns {party.holder.pid}",
            f"link set party{place} master bridge up",
        )
        party.ip("link set lo up", f"address add {self.host(name)}/24 dev eth0", "link set eth0 up")

    def name(self, party):
        """That of a party's namespace."""
        return party if party in self.parties else CLIENTS

    def host(self, party):
        return f"10.99.0.{1 + self.places[self.name(party)]}"

    def words(self, party):
        return self.parties[self.name(party)].words()

    def inside(self, party, act):
        return self.parties[self.name(party)].inside(act)

    def address(self, dialler, replica, port):
        return f"{self.host(f'r{replica}')}:{port}"

    def routes(self):
        """From each party to each replica."""
        return [(name, it) for name in self.parties for it in range(len(self.parties) - 1) if name != f"r{it}"]

    def lose(self, ways):
        """What goes these ways vanishes: from a party to another one, by their names."""
        for way in sorted(set(ways) - self.lost):
            self.parties[way[0]].ip(f"route add blackhole {self.host(way[1])}")
            self.lost.add(way)

    def cut(self, pairs):
        both = [(name, f"r{replica}") for name, replica in pairs]
        self.lose(both + [(other, name) for name, other in both])

    def hold(self, pairs):
        """What goes from the dialler to the replica vanishes, and with it what confirms the other direction."""
        self.lose([(name, f"r{replica}") for name, replica in pairs])

    def heal(self, pairs):
        """Takes back all that was done between these parties."""
        healed = {frozenset((name, f"r{replica}")) for name, replica in pairs}
        for way in [it for it in self.lost if frozenset(it) in healed]:
            self.parties[way[0]].ip(f"route del blackhole {self.host(way[1])}")
            self.lost.discard(way)
        for it in self.parties.values():
            subprocess.run([*it.words(), "tc", "qdisc", "del", "dev", "eth0", "root"], capture_output=True)

    def disturb(self, _pairs, faults):
        """All that each party sends is delayed by times of its own, and some is lost or repeated."""
        half = f"{500 * faults.delay:.0f}ms"
        given = f"delay {half} {half} loss {100 * faults.lost}% duplicate {100 * faults.repeated}%"
        for it in self.parties.values():
            ran([*it.words(), "tc", "qdisc", "replace", "dev", "eth0", "root", "netem", *given.split()])

    def end(self):
        for it in (*self.parties.values(), self.bridge):
            it.end()


@cache
def why_not(has_faults=False):
    """Why there are no namespaces here, or none that disturb what goes; None if there are."""
    if not shutil.which("ip"):
        subprocess.run([HERE.parent / "install", "iproute2"], capture_output=True)
    try:
        namespaces = Namespaces(1)
    except (OSError, Trouble) as why:
        return f"no network namespaces ({why})"
    try:
        if has_faults:
            words = "tc qdisc add dev eth0 root netem delay 1ms".split()
            ran([*namespaces.words("r0"), *words])
    except Trouble as why:
        return f"network namespaces without netem ({why})"
    finally:
        namespaces.end()
    return None


def told():
    """What of all this the machine has, in a few words."""
    return why_not(True) or "network namespaces"
