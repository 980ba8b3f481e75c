"""The rows of tools/test that talk with the program: at a terminal, and as a process beside another one."""

import os
import pty
import re
import select
import subprocess
import termios
import time

from processes import LONGEST, TOP, Row, end_group, shown
from program_rows import CLUSTER, RESULTS, SCRIPT, TYPO_SAID, config

END_OF_INPUT = b"\x04"
PROMPT = b"> "
OPERATIONS = ("out", "rdp", "inp", "cas", "rdAll", "inAll", "upgrade")


class Otherwise(Exception):
    """Says what came in place of what was wanted."""


def pieces(reader):
    """Reads what comes, until the end."""
    late = time.monotonic() + LONGEST
    while True:
        ready, _, _ = select.select([reader], [], [], max(late - time.monotonic(), 0))
        if not ready:
            raise Otherwise("it waits for too long")
        try:
            piece = os.read(reader, 1 << 16)
        except OSError:
            # So the end of a terminal is told, once nobody has it open.
            piece = b""
        if not piece:
            return
        yield piece


def read_all(reader):
    return b"".join(pieces(reader))


def read_until(reader, wanted, name):
    """Reads until this text has come. Anything else in front of it, or an end, is wrong."""
    found = b""
    for piece in pieces(reader) if wanted else ():
        found += piece
        if found == wanted or not wanted.startswith(found):
            break
    if found != wanted:
        raise Otherwise(f"{name} {shown(found)} and not {shown(wanted)}")


class Talk:
    """A program whose standard error is a terminal, and its standard input too unless it is given another one. The
    terminal shows what the program says, and doesn't repeat what is typed."""

    def __init__(self, words, **streams):
        self.near, far = pty.openpty()
        mode = termios.tcgetattr(far)
        mode[1] &= ~termios.OPOST
        mode[3] &= ~termios.ECHO
        termios.tcsetattr(far, termios.TCSANOW, mode)
        how = {"stdin": far, "stdout": subprocess.PIPE, "stderr": far, **streams}
        try:
            self.begun = subprocess.Popen(words, cwd=TOP, start_new_session=True, bufsize=0, **how)
        finally:
            os.close(far)

    def __enter__(self):
        return self

    def __exit__(self, *_):
        end_group(self.begun)
        self.begun.wait()
        self.begun.stdout.close()
        os.close(self.near)

    def type(self, text):
        os.write(self.near, text)

    def answers(self, text):
        """These results have come, and no others."""
        read_until(self.begun.stdout.fileno(), text, "results")

    def says(self, text):
        """The terminal has this text, and no other since the last one."""
        read_until(self.near, text, "the terminal")

    def said(self):
        """All that the terminal has until the program ends."""
        return read_all(self.near)

    def ends(self, status):
        try:
            ended = self.begun.wait(LONGEST)
        except subprocess.TimeoutExpired:
            raise Otherwise("it doesn't end") from None
        if ended != status:
            raise Otherwise(f"status {ended} and not {status}")
        results = read_all(self.begun.stdout.fileno())
        if results:
            raise Otherwise(f"results {shown(results)} at the end")


def fault_of_talk(talk, words, **streams):
    """Returns what of a talk was otherwise."""
    try:
        with Talk(words, **streams) as begun:
            talk(begun)
    except Otherwise as why:
        return str(why)
    return None


def session(talk):
    """A prompt before each line, an answer at once, and on it goes after a refused line."""
    talk.says(PROMPT)
    for line, results, said in (
        (b"out (1)\n", b"done\n", b""),
        (b"foo\n", b"", TYPO_SAID.encode()),
        (b"rdp (1)\n", b"found (1)\n", b""),
        (b"\n", b"", b""),
    ):
        talk.type(line)
        talk.answers(results)
        talk.says(said + PROMPT)
    talk.type(END_OF_INPUT)
    talk.ends(1)


def session_without_refusal(talk):
    talk.says(PROMPT)
    talk.type(b"out (1)\n")
    talk.says(PROMPT)
    talk.answers(b"done\n")
    talk.type(END_OF_INPUT)
    talk.ends(0)


def helped(talk):
    """`help` tells each operation with an example, and is no refused line."""
    talk.says(PROMPT)
    talk.type(b"help\n")
    told = b""
    for piece in pieces(talk.near):
        told += piece
        if told.endswith(b"\n" + PROMPT):
            break
    lines = told.decode().splitlines()
    for name in OPERATIONS:
        # Its form, what it does, and an example.
        if not any(re.match(rf"{name}( .*)? {name}( \S.*)?$", it) for it in lines):
            raise Otherwise(f"no line tells of {name} with an example: {shown(told)}")
    talk.type(END_OF_INPUT)
    talk.ends(0)


def file_of_lines(talk):
    """A script that is a file has no prompt."""
    talk.answers((TOP / "examples" / "first.out").read_bytes())
    talk.ends(0)
    if talk.said():
        raise Otherwise("the terminal has a text")


def foretold(talk):
    """A script that will not fit is told of before the start."""
    said = talk.said().decode()
    if not re.fullmatch(r"[^\n]*\b100\nstopped\n[^\n]+\n", said):
        raise Otherwise(f"the terminal {shown(said)}")
    talk.ends(3)


def watched(talk):
    """After two seconds it is told how many operations are answered, and cleared at the end."""
    said = talk.said().decode()
    if not re.fullmatch(r"0 of 1 answered\n(\x1b\[A\x1b\[K\d of 1 answered\n)*\x1b\[A\x1b\[K", said):
        raise Otherwise(f"the terminal {shown(said)}")
    talk.answers(b"done\n")
    talk.ends(0)


def fault_of_waiting(program):
    """Each answer comes before more is read."""
    how = {"stdin": subprocess.PIPE, "stdout": subprocess.PIPE, "stderr": subprocess.DEVNULL, "bufsize": 0}
    begun = subprocess.Popen([program, "local", "-"], start_new_session=True, **how)
    try:
        for line, result in zip(SCRIPT.splitlines(True), RESULTS.splitlines(True)):
            begun.stdin.write(line.encode())
            read_until(begun.stdout.fileno(), result.encode(), "results")
        begun.stdin.close()
        begun.wait(LONGEST)
        return None if begun.returncode == 0 else f"status {begun.returncode}"
    except (Otherwise, subprocess.TimeoutExpired) as why:
        return str(why)
    finally:
        end_group(begun)
        begun.wait()
        begun.stdin.close()
        begun.stdout.close()


def given(text):
    """A file with this text, which is read from its beginning."""
    reader, writer = os.pipe()
    os.write(writer, text.encode())
    os.close(writer)
    return os.fdopen(reader, "rb")


def fault_of_foretelling(program):
    with given(config("journal = 100")) as settings:
        words = [program, "run", "-", "examples/lock.bts"]
        return fault_of_talk(foretold, words, stdin=settings)


def fault_of_watching(program):
    with given("out (1)\n") as script:
        return fault_of_talk(watched, [program, "run", "--drill", "0=silent", CLUSTER, "-"], stdin=script)


def all_rows(programs):
    for program in filter(None, (programs.whole, programs.local)):
        by = "" if program is programs.whole else ", by the program of local and show"
        for name, talk, words in (
            ("a prompt, answers and a refused line", session, ["local", "-"]),
            ("a prompt and no refused line", session_without_refusal, ["local", "-"]),
            ("help", helped, ["local", "-"]),
            ("no prompt", file_of_lines, ["local", "examples/first.bts"]),
        ):
            name = f"{name} at a terminal: btspace {' '.join(words)}{by}"
            yield Row(name, lambda one=talk, other=[program, *words]: fault_of_talk(one, other))
        yield Row(f"an answer before more is read: btspace local -{by}", lambda it=program: fault_of_waiting(it))
    yield Row("a forecast at a terminal: btspace run", lambda: fault_of_foretelling(programs.whole))
    yield Row("the progress at a terminal: btspace run", lambda: fault_of_watching(programs.whole))
