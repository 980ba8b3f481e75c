"""The rows of tools/test that link the static library of one space into its examples in C and Rust, and run them."""

import os
import shutil
import subprocess
from pathlib import Path

from crate_list import libraries
from processes import TOP, Row, fault_of_check

CRATE = TOP / "crates" / "space_library"
ARCHIVE = CRATE / "out" / "libspace_library.a"
TESTS = TOP / "clients" / "run_library_tests"
# What each kind of tests is compiled by.
COMPILERS = {"c": os.environ.get("CC", "cc"), "rust": "cargo"}
# So many seconds its build may take, and its tests.
BUILD, RUN = 1800, 600


def kit():
    page = subprocess.run(["rt", "doc"], capture_output=True, text=True, check=True).stdout.strip()
    return Path(page).parent


def below(name):
    """The crates below one, each after those that it uses."""
    uses, found = libraries(), []
    for it in uses[name]:
        found += [lower for lower in [*below(it), it] if lower not in found]
    return found


def rlib_of(name):
    return TOP / "crates" / name / "out" / "rlib" / f"{name}.rlib"


def building():
    """The words that prove and build the library. rt ci leaves the libraries below without the stamps by which `rt lib` would
    know them, and `rt lib` would prove them once more: so this goes over them as they are. Where stamps are there, they are
    of earlier runs, and `rt lib` knows whether they are stale."""
    lower = below(CRATE.name)
    if any((rlib_of(it).parent / "stamp").is_file() for it in lower):
        return ["rt", "lib"]
    folder = kit()
    words = [folder / "bin" / "rattle", "build", "--crate-name", CRATE.name, "src/lib.rt", "--crate-type", "staticlib"]
    words += ["--extern", f"std={folder}/rlibs/std.rlib", "-L", f"dependency={folder}/rlibs"]
    for it in libraries()[CRATE.name]:
        words += ["--extern", f"{it}={rlib_of(it)}"]
    for it in lower:
        words += ["-L", f"dependency={rlib_of(it).parent}"]
    words += ["--antt-project", folder / "rattle" / "logic" / "antt-project.json", "--logic-built", folder / "logic_built"]
    words += ["--jobs", "1", "--links", f"{CRATE.name}=", "--toolchain", folder / "toolchain", "--backend", "llvm"]
    return [*words, "-o", ARCHIVE]


def fault_of_building():
    """Returns why the library isn't built anew, if it isn't."""
    ARCHIVE.unlink(missing_ok=True)
    ARCHIVE.parent.mkdir(exist_ok=True)
    fault = fault_of_check(building(), CRATE, BUILD)
    return fault or (None if ARCHIVE.is_file() else "there is no library")


def lacking():
    """The kinds of tests that can't be run here, each with the compiler that isn't there."""
    return [(kind, compiler) for kind, compiler in COMPILERS.items() if not shutil.which(compiler)]


def all_rows(programs):
    if not programs.library:
        return
    left_out = dict(lacking())
    for kind in COMPILERS:
        if kind not in left_out:
            words = (TESTS, programs.library, kit() / "c" / "liblibc_c.a", kind)
            yield Row(f"clients/run_library_tests, of {kind}", lambda them=words: fault_of_check(them, seconds=RUN))
