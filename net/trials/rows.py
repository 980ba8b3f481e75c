"""The rows of net/test, which tools/test runs too: the unit tests, and each scenario."""

import io
import os
import re
import signal
import subprocess
import tempfile
import traceback
import unittest
from pathlib import Path
from typing import Callable, NamedTuple

import linear_test
from cluster import Trouble
from scenarios import SCENARIOS, find_violation, run, why_left_out

NET = Path(__file__).resolve().parent.parent
# Seconds for a build, which compiles all crates below, and for an installation.
BUILD = 1800
# So many lines of each log are shown.
SHOWN = 20


class Row(NamedTuple):
    """What it is about, and what it does with the programs, a folder of its own and a seed. It tells what it saw."""

    name: str
    act: Callable


def fault_of(row, programs, seed):
    """What a row tells, or why it fails, with the ends of its logs."""
    with tempfile.TemporaryDirectory(prefix="btspace-") as folder:
        try:
            return row.act(programs, Path(folder), seed), None
        except Exception as why:
            text = str(why) if isinstance(why, Trouble) else traceback.format_exc()
            return None, "\n".join([text, *map(end_of, sorted(Path(folder).glob("*.log")))])


def end_of(log):
    return "\n".join([f"--- {log.name}", *log.read_text(errors="replace").splitlines()[-SHOWN:]])


def told(words):
    """What a command prints on standard output, if it ends well. Nothing of it is left running."""
    streams = {"stdin": subprocess.DEVNULL, "stdout": subprocess.PIPE, "stderr": subprocess.PIPE}
    begun = subprocess.Popen(words, text=True, start_new_session=True, **streams)
    try:
        results, said = begun.communicate(timeout=BUILD)
    finally:
        if begun.poll() is None:
            os.killpg(begun.pid, signal.SIGKILL)
            begun.wait()
    if begun.returncode:
        raise Trouble(f"{' '.join(map(str, words))}: status {begun.returncode}\n{results}{said}")
    return results.strip()


def build():
    """Builds the carrier, and tells where it is."""
    return told([NET / "build"])


def unit_tests(*_):
    results = re.findall(r"^test result: ok\. (\d+) passed", told([NET / "build", "--test"]), re.MULTILINE)
    passed = sum(map(int, results))
    if not passed:
        raise Trouble("cargo ran no test")
    return f"{passed} passed"


def checker_tests(*_):
    said = io.StringIO()
    tests = unittest.defaultTestLoader.loadTestsFromModule(linear_test)
    result = unittest.TextTestRunner(said).run(tests)
    if not result.wasSuccessful() or not result.testsRun:
        raise Trouble(said.getvalue())
    return f"{result.testsRun} passed"


def all_rows(with_long=True):
    yield Row("the carrier's unit tests", unit_tests)
    yield Row("the checker's unit tests", checker_tests)
    for it in (it for it in SCENARIOS if with_long or not it.is_long):
        why = why_left_out(it)
        name = f"{it.name}: left out, {why}" if why else it.name
        yield Row(name, lambda *given, it=it: run(it, *given))
    yield Row("three of four replicas lie, and the checker sees it", find_violation)
