"""Runs schedules by `btspace schedule`, and tells what they take: for bench/upgrade, bench/views and bench/world.

How long a compression of SHA-256 takes at least is told by three signed frames with wrong signatures, of different
replicas: for each the public key of its sender is made, nearly all of it by four compressions at once. Those that a
program makes one at a time take longer. So a share of compressions is the least that it can be, and the time apart from
them the most.
"""

import os
import subprocess
import sys
from pathlib import Path

TOP = Path(__file__).resolve().parent.parent
# The compressions of making a key tree, of a signature, and of testing one (bench/signing.rattle).
TREE, SIGNING, TESTING = 114_878, 1_281, 526
SIGNERS = (1, 2, 3)


def blocks(length):
    """The compressions of a text of so many bytes, with its padding."""
    return (length + 8) // 64 + 1


def mac(length):
    """Those of the MAC of such a text, under a key that is ready."""
    return blocks(length) + 1


def signed_frames():
    """View changes to view 1 from the mark 0 with nothing to tell, each by the first of its sender's keys."""
    for replica in SIGNERS:
        yield f"bytes r0 0000001846{replica:04x}{1:016x}{0:016x}0000000000{'0100'}{0:033152d}"


class Bench:
    """Runs schedules in a folder. Another build of the program is timed by PROGRAM=FILE."""

    def __init__(self, folder, config):
        self.program, self.folder = os.environ.get("PROGRAM", TOP / "btspace"), Path(folder)
        (self.folder / "config").write_text(config)

    def write(self, name, steps):
        (self.folder / name).write_text("".join(f"{step}\n" for step in steps))

    def words(self, *rest):
        return [self.program, "schedule", *rest]

    def trace(self, name):
        words = self.words("--trace", self.folder / "config", self.folder / name)
        return subprocess.run(words, capture_output=True, text=True, check=True).stdout.splitlines()

    def report(self, name):
        words = self.words(self.folder / "config", self.folder / name)
        return subprocess.run(words, capture_output=True, text=True, check=True).stdout.splitlines()

    def seconds(self, name):
        """The processor's seconds."""
        words = self.words(self.folder / "config", self.folder / name)
        run = subprocess.Popen(words, stdout=subprocess.DEVNULL)
        _, status, used = os.wait4(run.pid, 0)
        if status:
            sys.exit(f"{name}: the program ends with {status}")
        return used.ru_utime + used.ru_stime

    def least_seconds(self, names, rounds):
        """Of all rounds the shortest of each; in a round they take turns, so that all meet the same neighbours."""
        self.write("empty", [])
        self.write("signed", signed_frames())
        least = dict.fromkeys(("empty", "signed", *names), float("inf"))
        for _ in range(rounds):
            for name in least:
                least[name] = min(least[name], self.seconds(name))
        return least


def compression_seconds(least):
    """How long a compression takes that is one of four at once."""
    return (least["signed"] - least["empty"]) / (len(SIGNERS) * (TREE + TESTING))
