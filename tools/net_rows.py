"""The rows of tools/test about the carrier of net/: that it builds, its unit tests, what net/test does to real
processes, what the Python package does over it, and net/try as the pages have it.

Nothing of it listens beyond loopback. What it needs is installed; where it can't be, the row of the build fails.
"""

import os
import re
import sys
from functools import cache

from processes import TOP, Row, fault_of_check, run, shown

NET = TOP / "net"
sys.path.insert(0, str(NET / "trials"))

import cluster  # noqa: E402
import rows  # noqa: E402

SEED = 1
# The pages with a call of net/try, and what it prints.
PAGES = ("README.md", "docs/operating.md")
TRY = re.compile(r"^\$ (.*net/try)\n((?:[^`$].*\n)+)", re.MULTILINE)
NO_CARRIER = "there is no carrier"


@cache
def carrier():
    """The carrier, or None and why it isn't built."""
    try:
        return rows.build(), None
    except Exception as why:
        return None, str(why)


def fault_of(row, program):
    node, fault = carrier()
    if fault:
        return NO_CARRIER
    return rows.fault_of(row, cluster.Programs(node, program), SEED)[1]


def fault_of_try(page, program):
    node, fault = carrier()
    found = TRY.search((TOP / page).read_text())
    if fault or not found:
        return NO_CARRIER if fault else "it has no call of net/try"
    ended = run(["sh", "-c", found[1]], TOP, env={**os.environ, "NODE": node, "BTSPACE": str(program)})
    return None if ended[:2] == (0, found[2].encode()) else f"wanted {shown(found[2])}, got {ended.as_text()}"


def fault_of_python(program):
    node, fault = carrier()
    words = (TOP / "clients" / "python" / "run_tests", program, node, "test_cluster")
    return NO_CARRIER if fault else fault_of_check(words, seconds=300)


def all_rows(programs):
    yield Row("net/build", lambda: carrier()[1])
    for it in rows.all_rows(with_long=False):
        yield Row(f"net/test: {it.name}", lambda it=it: fault_of(it, programs.whole))
    yield Row("clients/python/run_tests, of a cluster", lambda: fault_of_python(programs.whole))
    for page in PAGES:
        yield Row(f"net/try, as {page} has it", lambda page=page: fault_of_try(page, programs.whole))
