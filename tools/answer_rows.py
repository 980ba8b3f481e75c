"""The rows of tools/test about answers to words that ask for help or are wrong: those of the program, those that
./btspace gives before anything is built, and what tools/manual makes of them."""

import os
import shutil
import sys
import tempfile
import time
from pathlib import Path

import answers
from processes import TOP, Row, run, shown, tool
from program_rows import RESULTS, SCRIPT
from shells import SHELLS

manual = tool("manual")

# Words that ./btspace answers before anything is built.
QUICK = (
    "", "--help", "-h", "--version", "-V", "help", "help local", "help run", "help schedule", "help keys", "help replica",
    "help client", "help show", "local --help", "run --help", "schedule --help", "keys --help", "replica --help",
    "client --help", "show --help", "nope", "help nope", "--nope", "-q", "local", "run one", "client one two",
    "local --space 3 one", "schedule --trace --trace one", "show one two",
)
# An answer at once takes less, in seconds, on a slow machine too.
AT_ONCE = 5
# So many random words are compared.
TRIED = 300
# What the shell bash offers behind these words, the last of which is begun.
OFFERED = {
    "btspace sch": "schedule",
    "btspace local --sp": "--space",
    "btspace local --space ''": "1 2",
    "btspace schedule --p": "--picture",
}


def told(ended):
    return ended.status, ended.results.decode(), ended.said.decode()


def as_told(answer):
    results, said = ("", answer.text) if answer.is_mistake else (answer.text, "")
    return answer.status, results, said


def fault_of_answers(program, room, rows):
    """Returns the first words that the program answers otherwise than the table."""
    table = answers.read_table()
    for row in rows:
        ended, answer = run([program, *row.words], room), table.answer(row.words)
        if told(ended) != as_told(answer):
            return f"{' '.join(row.words)}: {ended.as_text()}, and by the table {shown(answer.text)}"
    return None


def of_table(programs):
    """The rows of the table of answers, by its files."""
    table = answers.read_table()
    groups = {}
    for row in table.rows:
        groups.setdefault(next((it for it in row.words[:1] if it in table.commands), "the program"), []).append(row)
    for name, rows in groups.items():
        name_of_row = f"{len(rows)} answers to words of {name}"
        yield Row(name_of_row, lambda them=rows: fault_of_answers(programs.whole, programs.room, them))


def asked(programs):
    return manual.Program(programs.whole, programs.room)


def fault_of_random_words(programs):
    wrong, _ = manual.compared(asked(programs), TRIED)
    return wrong[0] if wrong else None


def fault_of_table(programs):
    return None if manual.is_current(asked(programs)) else "tools/manual --write makes another one"


def lay_out(room):
    """Puts there what ./btspace needs before anything is built, and no source that could be built."""
    shutil.copy(TOP / "btspace", room / "btspace")
    shutil.copy(TOP / "crates.txt", room / "crates.txt")
    shutil.copytree(TOP / "tools", room / "tools", ignore=shutil.ignore_patterns("__pycache__"))
    inside = answers.ANSWERS.relative_to(TOP)
    shutil.copytree(answers.ANSWERS, room / inside)
    (room / "bin").mkdir()
    (room / "bin" / "python3").symlink_to(sys.executable)
    return {**os.environ, "PATH": f"{room / 'bin'}:/usr/bin:/bin"}


def fault_of_quick(program, words):
    """Compares an answer of ./btspace with the built program's. Nothing is built for it."""
    with tempfile.TemporaryDirectory() as folder:
        room = Path(folder)
        environment, began = lay_out(room), time.monotonic()
        quick = run([room / "btspace", *words.split()], room, env=environment)
        seconds = time.monotonic() - began
        built = run([program, *words.split()], room)
        if [*room.glob("crates/*/out")]:
            return "something was built"
    if told(quick) != told(built):
        return f"{quick.as_text()}, and by the program {built.as_text()}"
    return f"it took {seconds:.1f} seconds" if seconds > AT_ONCE else None


def fault_of_start(program, name):
    """./btspace goes on as the program that is built, also by a link from elsewhere."""
    with tempfile.TemporaryDirectory() as folder:
        room = Path(folder)
        environment, out, link = lay_out(room), room / "crates" / name / "out", room / "elsewhere" / "link"
        out.mkdir(parents=True)
        (out / "btspace").symlink_to(program)
        (out / "made_of").write_text("uppermost=''\nmade_of=''\n")
        link.parent.mkdir()
        link.symlink_to(room / "btspace")
        for words in ([room / "btspace", "local", "-"], [link, "local", "-"]):
            ended = run(words, room, SCRIPT.encode(), env=environment)
            if told(ended) != (0, RESULTS, ""):
                return f"{words[0].name}: {ended.as_text()}"
    return None


def fault_of_text(shell):
    """A text for a shell, or the man page, has each command and each option."""
    table = answers.read_table()
    text = SHELLS[shell](table).replace("\\-", "-")
    names = [*table.names, *(it for command in table.commands.values() for it in command.options)]
    lost = [it for it in names if it not in text]
    return f"it has no {lost[0]}" if lost else None


def fault_of_bash(words, offered):
    *_, last = words.split()
    count = len(words.split()) - 1
    script = (
        f"eval \"$('{TOP}/tools/manual' bash)\"; COMP_WORDS=({words}); COMP_CWORD={count}; _btspace btspace {last};"
        ' echo "${COMPREPLY[*]}"'
    )
    ended = run(["bash", "-c", script], TOP)
    return None if told(ended) == (0, f"{offered}\n", "") else ended.as_text()


def of_manual(programs):
    yield Row("the table of answers is not stale: tools/manual", lambda: fault_of_table(programs))
    yield Row(f"{TRIED} random words by the table", lambda: fault_of_random_words(programs))
    for shell in SHELLS:
        yield Row(f"each command and option: tools/manual {shell}", lambda it=shell: fault_of_text(it))
    for words, offered in OFFERED.items() if shutil.which("bash") else ():
        yield Row(f"bash completes: {words}", lambda it=words, text=offered: fault_of_bash(it, text))


def all_rows(programs):
    yield from of_table(programs)
    for words in QUICK:
        name = f"before anything is built: ./btspace {words}".rstrip()
        yield Row(name, lambda it=words: fault_of_quick(programs.whole, it))
    yield Row("what is built: ./btspace local -", lambda: fault_of_start(programs.whole, "btspace"))
    if programs.local:
        name = "what is built of local and show alone: ./btspace local -"
        yield Row(name, lambda: fault_of_start(programs.local, "btspace_local"))
    yield from of_manual(programs)
