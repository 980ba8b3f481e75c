"""The rows of tools/test that hold the pages to the program: commands with what they print, lines of traces, pictures,
refusals, examples, and what scripts make of the sources."""

import re
import subprocess
import tempfile
from pathlib import Path

from processes import TOP, Row, fault_of_check, run, shown, tool

examples, refusals, endless = tool("examples"), tool("refusals"), tool("endless")

# Pages whose commands are run, each of which has one at least.
PAGES = ("README.md", "docs/tutorial.md")
TUTORIAL = TOP / "docs" / "tutorial.md"
BLOCK = re.compile(r"^```(\w*)\n(.*?)^```$", re.MULTILINE | re.DOTALL)
COMMAND = "$ "
ENTRY = re.compile(r"\d+ (invoke|got|tick|executed|installed|sent|accepted) ")
# What stands behind these words of a summary differs from run to run.
DIFFERS = re.compile(r"^(views entered|numbers executed|entries used|time): .*", re.MULTILINE)
# Which scripts are asked whether what they made of the sources is stale.
CHECKS = {
    "tools/theorem --check": True,
    "tools/layers --check": True,
    "tools/sizes --check": True,
    "tools/premises --check": True,
    "tools/examples": True,
    "edits/table --check": True,
}
# A stream of this length would not fit into the addresses that a row has.
STREAM = 64 << 20


def blocks(page):
    """The blocks of a page, each behind its kind."""
    return BLOCK.findall(page.read_text())


def commands_in(text):
    """The commands of a block that run the program, each with what it prints."""
    command, printed = "", []
    for line in [*text.splitlines(True), COMMAND]:
        if line.startswith(COMMAND):
            if "./btspace" in command:
                yield command, "".join(printed)
            command, printed = line[len(COMMAND) :].strip(), []
        else:
            printed.append(line)


def commands(page):
    return [it for kind, text in blocks(page) if kind == "sh" for it in commands_in(text)]


def quoted(page):
    """The lines of traces that a page quotes, by the command in front of them that plays the schedule."""
    found, last = {}, ""
    for kind, text in blocks(page):
        for command, _ in commands_in(text) if kind == "sh" else ():
            last = command if " schedule " in command else last
        lines = text.splitlines()
        if kind == "text" and last and lines and all(map(ENTRY.match, lines)):
            found.setdefault(last, []).extend(lines)
    return found


def printed_by(program, command):
    """What a command of a page prints at a terminal, where ./btspace is this program."""
    with tempfile.TemporaryDirectory() as folder:
        room = Path(folder)
        (room / "examples").symlink_to(TOP / "examples")
        (room / "btspace").symlink_to(program)
        ended = run(["sh", "-c", command], room, stderr=subprocess.STDOUT)
    return ended.results.decode(errors="backslashreplace")


def fault_of_command(program, command, printed):
    found = printed_by(program, command)
    if "--summary" in command:
        found, printed = (DIFFERS.sub(r"\1", it) for it in (found, printed))
    return None if found == printed else f"it prints {shown(found)} and not {shown(printed)}"


def fault_of_trace(program, command, lines):
    entries = set(printed_by(program, f"{command} --trace").splitlines())
    lost = [it for it in lines if it not in entries]
    return f"{len(lost)} of the {len(lines)} lines are not in the trace: {lost[0]}" if lost else None


def of_pages(programs):
    """The rows of what stands in pages."""
    for name in PAGES:
        found = commands(TOP / name)
        for command, printed in found:
            name_of_row = f"as {name} has it: {command}"
            yield Row(name_of_row, lambda it=command, text=printed: fault_of_command(programs.whole, it, text))
        if not found:
            yield Row(f"the commands of {name}", lambda: "there are none")
    for command, lines in quoted(TUTORIAL).items():
        name_of_row = f"{len(lines)} lines as docs/tutorial.md has them: {command} --trace"
        yield Row(name_of_row, lambda it=command, them=lines: fault_of_trace(programs.whole, it, them))


def fault_of_picture(program, script, words):
    picture = TOP / "docs" / "pictures" / f"{script.stem}.svg"
    ended = run([program, *words, "--picture", script], TOP)
    if (ended.status, ended.said) != (0, b""):
        return ended.as_text()
    return None if picture.is_file() and picture.read_bytes() == ended.results else "the picture is another one"


def of_examples(programs):
    """The rows of examples, and of their pictures."""
    for script, words in examples.all_runs():
        name = f"an example: btspace {' '.join(map(name_of, [*words, script]))}"
        yield Row(name, lambda it=script, them=words: examples.fault_of_run(programs.whole, it, them))
        if programs.local and words[0] == "local":
            name = f"{name}, by the program of local and show"
            yield Row(name, lambda it=script, them=words: examples.fault_of_run(programs.local, it, them))
        if words[0] == "schedule":
            name = f"docs/pictures/{script.stem}.svg is that of the example"
            yield Row(name, lambda it=script, them=words: fault_of_picture(programs.whole, it, them))


def name_of(word):
    return str(word.relative_to(TOP)) if isinstance(word, Path) else word


def of_refusals(programs):
    """The rows of the table of refusals in docs/formats.md."""
    for row in refusals.rows():
        name = f"a refusal: {row.kind} {row.given}"
        yield Row(name, lambda it=row: refusals.fault_of(programs.whole, it))
        if programs.local and row.kind in ("script", "digits"):
            name = f"{name}, by the program of local and show"
            yield Row(name, lambda it=row: refusals.fault_of(programs.local, it))


def of_endless_files(programs):
    """The rows of files that have no end, or can't be read."""
    for row in endless.rows(programs.room, STREAM):
        yield Row(f"an endless file: {row}", lambda it=row: endless.fault_of(it, endless.measure(programs.whole, it)))


def checks():
    """The rows of scripts that tell whether what they made is stale."""
    for command, is_on in CHECKS.items():
        if is_on:
            first, *rest = command.split()
            yield Row(f"not stale: {command}", lambda it=(TOP / first, *rest): fault_of_check(it))


def of_clients(programs):
    tests = TOP / "clients" / "python" / "run_tests"
    yield Row("clients/python/run_tests", lambda: fault_of_check((tests, programs.whole), seconds=300))


def all_rows(programs):
    yield from of_examples(programs)
    yield from of_refusals(programs)
    yield from of_pages(programs)
    yield from of_clients(programs)
    yield from of_endless_files(programs)
    yield from checks()
