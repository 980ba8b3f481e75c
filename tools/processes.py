"""Starts programs as processes for tools/test: bounded in time, and with nothing left behind."""

import os
import signal
import subprocess
import sys
from importlib.machinery import SourceFileLoader
from importlib.util import module_from_spec, spec_from_loader
from pathlib import Path
from typing import Callable, NamedTuple, Optional

TOOLS = Path(__file__).resolve().parent
TOP = TOOLS.parent
# No row takes as long, in seconds.
LONGEST = 60
# So much of a text that differs is shown.
SHOWN = 300


class Row(NamedTuple):
    """A row of the tests: what it is about, and what tells why it fails, if it does."""

    name: str
    fault: Callable[[], Optional[str]]


class Programs(NamedTuple):
    """The program, that of `local` and `show` alone if it is there, a folder for files that all rows may read, and the
    static library if it is there."""

    whole: Path
    local: Optional[Path]
    room: Path
    library: Optional[Path]


class Ended(NamedTuple):
    """How a process ended: its status, or None if it had to be killed, and what it wrote."""

    status: Optional[int]
    results: bytes
    said: bytes

    def as_text(self):
        return f"status {self.status}, results {shown(self.results)}, standard error {shown(self.said)}"


def tool(name):
    """The script of this name in this folder, as a module."""
    if name in sys.modules:
        return sys.modules[name]
    loader = SourceFileLoader(name, str(TOOLS / name))
    module = module_from_spec(spec_from_loader(name, loader))
    sys.modules[name] = module
    loader.exec_module(module)
    return module


def shown(text):
    text = text.decode(errors="backslashreplace") if isinstance(text, bytes) else text
    return repr(text if len(text) <= SHOWN else f"{text[:SHOWN]}..")


def bounded(words, kilobytes):
    """The words by which a program has so many kilobytes of addresses."""
    return ["sh", "-c", 'ulimit -v "$0" && exec "$@"', str(kilobytes), *words]


def end_group(begun):
    """Ends a process that was started as the head of a session, with all that it started, unless it has ended."""
    if begun.poll() is None:
        os.killpg(begun.pid, signal.SIGKILL)


def run(words, folder, given=b"", seconds=LONGEST, **streams):
    """Runs a program on this standard input for so many seconds at most, and returns how it ended."""
    how = {"stdin": subprocess.PIPE, "stdout": subprocess.PIPE, "stderr": subprocess.PIPE, **streams}
    begun = subprocess.Popen(words, cwd=folder, start_new_session=True, **how)
    try:
        texts = begun.communicate(given, seconds)
        status = begun.returncode
    except subprocess.TimeoutExpired:
        end_group(begun)
        texts, status = begun.communicate(), None
    except BaseException:
        end_group(begun)
        begun.wait()
        raise
    return Ended(status, *(it or b"" for it in texts))


def fault_of_check(words, where=TOP, seconds=LONGEST):
    """Returns what a script says if it ends with another status than 0."""
    ended = run(words, where, seconds=seconds)
    if ended.status == 0:
        return None
    last = (ended.results + ended.said).decode(errors="replace").strip().splitlines()[-3:]
    return f"status {ended.status}: {' | '.join(last)[:SHOWN]}"
