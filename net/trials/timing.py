"""Clients that work through scripts, one call after another, and what their calls cost. `examples/callers.rs` times
the calls: on a busy machine this process would see answers late."""

import os
import subprocess
from pathlib import Path
from typing import NamedTuple

from cluster import HERE, Process, Trouble, children_of

EXAMPLES = HERE.parent / "out" / "release" / "examples"


def build_examples():
    """Builds the programs of net/examples."""
    words = [HERE.parent / "build", "--examples"]
    subprocess.run(words, check=True, capture_output=True)


def used(pid):
    """The processor seconds of a process's threads, 0 if it has ended."""
    try:
        tasks = list(Path(f"/proc/{pid}/task").iterdir())
        return sum(int((it / "schedstat").read_text().split()[0]) for it in tasks) / 1e9
    except OSError:
        return 0.0


def usage(pids):
    """The processor seconds that processes and their children have used so far."""
    return sum(map(used, pids)), sum(used(child) for pid in pids for child in children_of(pid))


class Figure(NamedTuple):
    """What calls cost: how many there were in a second, the milliseconds of half of them and of 99 in 100, and the
    microseconds of processor time for each: of servers and their children, and of clients and theirs."""

    rate: float
    half: float
    most: float
    servers: tuple
    clients: tuple

    def shown(self):
        return f"{self.rate:.0f} a second, ms p50 {self.half:.2f} p99 {self.most:.2f}"


class Callers:
    """Clients, each with its words and the lines of its script, that call for as long as they have lines."""

    def __init__(self, room, what, clients):
        self.calls = sum(len(lines) - 1 for _, lines in clients)
        rows = []
        for number, (words, lines) in enumerate(clients):
            script, log = room / f"{what}{number}", room / f"{what}{number}.log"
            write_script(script, lines)
            rows.append("\t".join(map(str, (script, log, *words))))
        write_script(room / what, rows)
        pipes = {"stdin": subprocess.PIPE, "stdout": subprocess.PIPE}
        self.process = Process([EXAMPLES / "callers", room / what], room / f"{what}.log", cwd=room, **pipes)

    def await_word(self, word):
        line = self.process.begun.stdout.readline().decode().split()
        if line[:1] != [word]:
            raise Trouble(f"clients: {self.process.said()}")
        return [int(it) for it in line[1:]]

    def figure(self, servers):
        """What all calls but the first of each client cost."""
        begun = self.process.begun
        try:
            self.await_word("begun")
            before = self.usages(servers)
            begun.stdin.write(b"\n")
            begun.stdin.flush()
            answered, microseconds = self.await_word("ended")
            after = self.usages(servers)
            begun.stdin.close()
            took = sorted(int(it) / 1e3 for it in begun.stdout.read().split())
        finally:
            self.process.kill()
        each = [tuple(1e6 * (now - was) / self.calls for now, was in zip(*it)) for it in zip(after, before)]
        rate = 1e6 * answered / max(1, microseconds)
        return Figure(rate, took[len(took) // 2], took[int(0.99 * len(took))], *each)

    def usages(self, servers):
        """What servers and clients have used so far."""
        self.process.all_running()
        return usage([it.begun.pid for it in servers]), usage(children_of(self.process.begun.pid))


def write_script(path, lines):
    path.write_text("".join(f"{it}\n" for it in lines))
    return path


def load():
    return f"load {os.getloadavg()[0]:.1f}"
