"""Processes on loopback: replicas, and clients that call one operation after another. All that is started ends with
them."""

import os
import random
import re
import shutil
import signal
import socket
import subprocess
import threading
import time
import urllib.request
from contextlib import suppress
from math import inf
from pathlib import Path
from typing import NamedTuple

from linear import Call
from network import Network, Straight
from space import ANY, INT, cas, inp, out, rd_all, rdp

HERE = Path(__file__).resolve().parent
FIRST_CLIENT = 256
# No process takes longer to begin, to answer after a fault, or to end, in seconds. A primary that is gone costs a
# timer of two seconds, the next one four, and so on; a machine at work takes several times as long.
BOUND = 120


class Trouble(Exception):
    """A test failed, and why."""


class Programs(NamedTuple):
    """The carrier, and the program that is its child."""

    node: str
    btspace: str


def free_ports(count):
    """Ports at which nobody listens. The system takes higher ones for links."""
    found = []
    for port in random.SystemRandom().sample(range(10_000, 30_000), 1_000):
        with suppress(OSError):
            socket.create_server(("127.0.0.1", port)).close()
            found.append(port)
        if len(found) == count:
            return found
    raise Trouble("there are no free ports")


class Running(NamedTuple):
    """A process by its number and its start, since numbers are given again."""

    pid: int
    start: int

    @staticmethod
    def of(pid):
        """The process that has this number, or None if none runs."""
        try:
            state, *fields = Path(f"/proc/{pid}/stat").read_text().rpartition(")")[2].split()
        except OSError:
            return None
        return None if state == "Z" else Running(pid, int(fields[18]))

    def is_alive(self):
        return Running.of(self.pid) == self

    def send(self, number):
        if self.is_alive():
            with suppress(ProcessLookupError):
                os.kill(self.pid, number)


def children_of(pid):
    found = []
    for task in Path(f"/proc/{pid}/task").glob("*"):
        with suppress(OSError):
            found += map(int, (task / "children").read_text().split())
    return found


def await_that(holds, what, seconds=BOUND):
    end = time.monotonic() + seconds
    while not holds():
        if time.monotonic() > end:
            raise Trouble(f"{what}: not within {seconds} s")
        time.sleep(0.02)


# Carriers end with the test, even if that is killed.
ENDS_TOO = ("setpriv", "--pdeathsig", "KILL") if shutil.which("setpriv") else ()


class Process:
    """A carrier with its child."""

    def __init__(self, words, log, **pipes):
        self.log = log
        with open(log, "wb") as errors:
            self.begun = subprocess.Popen([*ENDS_TOO, *words], stderr=errors, start_new_session=True, **pipes)
        self.running = {Running.of(self.begun.pid)} - {None}

    def all_running(self):
        """The carrier, what it started, and what that started."""
        for it in list(self.running):
            if it.is_alive():
                self.running.update(filter(None, map(Running.of, children_of(it.pid))))
        return self.running

    def send(self, number):
        for it in list(self.all_running()):
            it.send(number)

    def kill(self):
        # The carrier is stopped first, so that it starts nothing more.
        self.send(signal.SIGSTOP)
        self.send(signal.SIGKILL)
        self.begun.wait()

    def terminate(self, seconds=BOUND):
        """Ends it in order, and gives its status."""
        self.all_running()
        self.begun.terminate()
        try:
            status = self.begun.wait(seconds)
        except subprocess.TimeoutExpired:
            self.kill()
            raise Trouble(f"{self.log.name} didn't end by SIGTERM") from None
        await_that(lambda: not any(it.is_alive() for it in self.running), f"the child of {self.log.name} ends", 10)
        return status

    def most_memory(self):
        """The most bytes that the carrier had in memory so far."""
        status = Path(f"/proc/{self.begun.pid}/status").read_text()
        return 1024 * int(re.search(r"^VmHWM:\s+(\d+) kB$", status, re.MULTILINE)[1])

    def said(self):
        return self.log.read_text(errors="replace")


def make_certificates(room, names):
    if not shutil.which("openssl"):
        subprocess.run([HERE.parent / "install", "openssl"], check=True, capture_output=True)
    subprocess.run([HERE.parent / "certificates", "tls", *names], cwd=room, check=True, capture_output=True)


class Cluster:
    """`3f + 1` replicas in a folder. `network` names what links go through: nothing, the test's own `proxy`, or
    `namespaces`. `liars` tells which replicas lie and how."""

    def __init__(self, programs, room, seed, faults=1, clients=8, network=None, liars=None, tls=False):
        self.programs, self.room, self.seed, self.liars = programs, room, seed, liars or {}
        self.count, self.tls, self.started, self.replicas = 3 * faults + 1, tls, [], {}
        (room / "cluster.toml").write_text(f"f = {faults}\nclients = {clients}\n")
        subprocess.run([programs.btspace, "keys", "cluster.toml", "keys"], cwd=room, check=True, capture_output=True)
        names = [f"r{it}" for it in range(self.count)] + [f"c{it}" for it in range(clients)]
        if tls:
            make_certificates(room, names)
        self.ports = free_ports(2 * self.count)
        self.network = self.begin_network(network)

    def begin_network(self, kind):
        if kind == "namespaces":
            # They need what stands here.
            from namespaces import Namespaces

            return Namespaces(self.count)
        return Network(self.seed, not self.tls) if kind else Straight()

    def __enter__(self):
        try:
            for it in range(self.count):
                self.start(it)
            self.await_links(range(self.count))
        except BaseException:
            self.end()
            raise
        return self

    def __exit__(self, *_):
        self.end()

    def hosts_of(self, name):
        """The file of addresses of a party: those at which it dials replicas."""
        rows = ", ".join(f'"{self.network.address(name, it, self.ports[it])}"' for it in range(self.count))
        path = self.room / f"{name}.hosts.toml"
        path.write_text(f"replicas = [{rows}]\n" + ('certificates = "tls"\n' if self.tls else ""))
        return path

    def words(self, name, *more, btspace=None):
        kind = "replica" if name[0] == "r" else "client"
        keys, program = self.room / "keys" / f"{name}.toml", btspace or self.programs.btspace
        words = [self.programs.node, kind, self.hosts_of(name), keys, "--btspace", program, *more]
        return [*self.network.words(name), *words]

    def start(self, number):
        name = f"r{number}"
        program, environment = self.child(self.liars.get(number))
        words = self.words(name, "--metrics", f"127.0.0.1:{self.metrics_port(number)}", btspace=program)
        process = Process(words, self.room / f"{name}.log", stdin=subprocess.DEVNULL, env=environment)
        self.replicas[number] = process
        self.started.append(process)

    def child(self, lie):
        """The program that a carrier starts, and its environment, for a party that tells this lie, or none."""
        if not lie:
            return self.programs.btspace, None
        return HERE / "liar", {**os.environ, "LIE": lie, "BTSPACE": str(self.programs.btspace)}

    def metrics_port(self, number):
        return self.ports[self.count + number]

    def health(self, number):
        """The carrier's word about its health, and whether it is good."""
        asked = [self.programs.node, "health", f"127.0.0.1:{self.metrics_port(number)}"]
        words = [*self.network.words(f"r{number}"), *asked]
        ended = subprocess.run(words, capture_output=True, text=True)
        return ended.stdout.strip(), ended.returncode == 0

    def executed(self, number):
        """The greatest number whose batch a replica has executed, as its metrics tell."""
        return self.metric(number, "executed_number")

    def metric(self, number, name):
        def read():
            address = f"http://127.0.0.1:{self.metrics_port(number)}/metrics"
            with urllib.request.urlopen(address, timeout=BOUND) as page:
                return page.read().decode()

        metrics = self.network.inside(f"r{number}", read)
        return int(re.search(rf"^btspace_{name} (\d+)$", metrics, re.MULTILINE)[1])

    def await_executed(self, number, other):
        """Waits until a replica has come as far as another one is now."""
        wanted = self.executed(other)
        await_that(lambda: self.executed(number) >= wanted, f"r{number} comes as far as {wanted}")

    def await_links(self, numbers):
        for it in numbers:
            await_that(lambda: self.health(it)[1], f"r{it} is linked")

    def client(self, number, *more, lie=None):
        client = Client(self, f"c{number}", *more, lie=lie)
        self.started.append(client.process)
        return client

    def load(self, count, first=0):
        return Load([self.client(first + it) for it in range(count)], self.seed)

    def kill(self, number):
        self.replicas[number].kill()

    def pairs(self, diallers, replicas):
        """The routes from these parties to these replicas."""
        return [it for it in self.network.routes() if it[0] in diallers and it[1] in replicas]

    def pairs_of(self, number):
        """All routes from and to a replica."""
        return [it for it in self.network.routes() if it[0] == f"r{number}" or it[1] == number]

    def end(self):
        for it in self.started:
            it.send(signal.SIGCONT)
            it.begun.terminate()
        for it in self.started:
            try:
                it.begun.wait(10)
            except subprocess.TimeoutExpired:
                it.kill()
        self.network.end()
        for it in {running for it in self.started for running in it.running}:
            it.send(signal.SIGKILL)


def operations(seed, place):
    """Operations without end of the client at this place, on a few keys, so that clients meet. Each tuple that is put
    has a number of its own."""
    source, number = random.Random(f"{seed} {place}"), 0
    while True:
        number += 1
        key, own = source.randrange(3), 1000 * place + number
        yield source.choice((
            out(key, own), out(key, own), inp(key, INT), inp(key, INT), inp(INT, ANY), rdp(key, INT), rdp(key, ANY),
            cas((key, INT), (key, own)), rd_all(8, key, INT),
        ))


class Client:
    """A client's carrier as a co-process, and its calls."""

    def __init__(self, cluster, name, *more, lie=None):
        program, environment = cluster.child(lie)
        pipes = {"stdin": subprocess.PIPE, "stdout": subprocess.PIPE, "env": environment}
        self.name, self.calls = name, []
        words = cluster.words(name, *more, btspace=program)
        self.process = Process(words, cluster.room / f"{name}.log", **pipes)

    def call(self, op):
        """The result line, or None if none came."""
        begun = self.process.begun
        begin = time.monotonic()
        self.calls.append(Call(op, None, begin, inf))
        try:
            begun.stdin.write(op.line().encode() + b"\n")
            begun.stdin.flush()
            line = begun.stdout.readline()
        except OSError:
            return None
        if not line.endswith(b"\n"):
            return None
        self.calls[-1] = Call(op, line[:-1].decode(), begin, time.monotonic())
        return self.calls[-1].answer

    def close(self):
        """Ends its lines. It ends too then, with the status 0."""
        self.process.begun.stdin.close()
        await_that(lambda: self.process.begun.poll() is not None, f"{self.name} ends with its lines")
        if self.process.begun.returncode != 0:
            raise Trouble(f"{self.name} ended with {self.process.begun.returncode}: {self.process.said()}")

    def answered(self):
        return sum(it.answer is not None for it in self.calls)


class Load:
    """Clients that call, each in a thread of its own, until they are told to stop."""

    def __init__(self, clients, seed):
        self.seed, self.is_stopped = seed, threading.Event()
        self.clients, self.threads, self.killed = [], [], []
        for it in clients:
            self.add(it)

    def add(self, client):
        thread = threading.Thread(target=self.run, args=(client, len(self.clients)), daemon=True)
        self.clients.append(client)
        self.threads.append(thread)
        thread.start()

    def run(self, client, place):
        for op in operations(self.seed, place):
            if self.is_stopped.is_set() or client.call(op) is None:
                return
            # Histories are judged by a search, and a few hundred calls are enough for it.
            time.sleep(0.02)

    def kill(self, place):
        """A client is killed, in a call mostly."""
        self.killed.append(self.clients[place])
        self.clients[place].process.kill()

    def go_on(self, count, what, seconds=BOUND):
        """Each client that lives gets so many answers more."""
        wanted = {it: it.answered() + count for it in self.clients if it not in self.killed}
        await_that(lambda: all(it.answered() >= most for it, most in wanted.items()), f"calls go on {what}", seconds)

    def stop(self):
        """The history of each client, once its last call was answered."""
        self.is_stopped.set()
        for it in self.threads:
            it.join(BOUND)
        for it in self.clients:
            if it not in self.killed:
                it.close()
        return [list(it.calls) for it in self.clients]

    def longest_pause(self):
        ends = sorted(it.end for client in self.clients for it in client.calls if it.answer is not None)
        return max((b - a for a, b in zip(ends, ends[1:])), default=0.0)
