"""The rows of tools/test about the word `client`: what one process writes for what it reads, and clients and replicas
that are joined by pipes.

What has to come stands in docs/formats.md, and is computed here by Python's hmac and hashlib.
"""

import os
import queue
import subprocess
import tempfile
import threading
import time
from functools import cache
from pathlib import Path

import party_files
from console_rows import END_OF_INPUT, PROMPT, fault_of_talk
from party_frames import FRAME, ORDERED, READ_ONLY, REPLY, Party, came, first_record, goes, linked, sent, timer_begins
from party_frames import long, timer_over
from processes import LONGEST, Row, end_group, run, shown
from replica_rows import DONE, FOUND, NO_SPACE, NOT_THERE, OUT, RDP, REFUSED, REPLICAS, SEED, told_nothing
from replica_rows import Process as Replica

CLIENTS = 2
C0 = party_files.FIRST_CLIENT
ABSENT = b"\x33"
# The milliseconds of a call's first timer.
FIRST = 500
# The greatest timestamp, and the calls of a millisecond.
LAST, CALLS = 1 << 62, 1 << 20
# Where the life of a client begins, unless a row says otherwise.
ABOVE = 1000
UNANSWERED = "stopped\nthe records ended before the answer\n"
SPENT = "stopped\nthe client can make no further call\n"
IS_FOLDER = "stopped\nnot read: Is a directory (os error 21)\n"


@cache
def files():
    """The files of four replicas and two clients."""
    return party_files.files_of(SEED, 1, CLIENTS)


@cache
def party(name):
    return Party(files()[f"{name}.toml"])


def with_files(test):
    """Runs a test in a folder that has the files."""
    with tempfile.TemporaryDirectory() as folder:
        for name, text in files().items():
            (Path(folder) / name).write_text(text)
        return test(Path(folder))


# ---- one process, whose records are files


def asks(timestamp, mode, operation):
    return goes(REPLICAS, party("c0").request(REPLICAS, timestamp, mode, operation))


def replied(replicas, timestamp, mode, answer, number=1):
    return [came(party(f"r{it}").reply(C0, timestamp, mode, number, answer)) for it in replicas]


def dropped():
    """Frames that client 0 drops in a call of the timestamp 1001: none, or no reply to this call that it can trust."""
    frames = (
        b"", bytes(range(256)), party("r0").reply(C0, 1001, ORDERED, 1, DONE)[:-1],
        party("r0").reply(C0, 1001, ORDERED, 1, DONE) + b"\0", party("r0").reply(C0 + 1, 1001, ORDERED, 1, DONE),
        Party(party_files.files_of(bytes(32), 1, CLIENTS)["r0.toml"]).reply(C0, 1001, ORDERED, 1, DONE),
        party("c0").request(REPLICAS, 1001, ORDERED, OUT), party("c0").sealed(REPLICAS, REPLY, long(0)),
    )
    earlier = [it for timestamp in (1, 1000, 1002) for it in replied(REPLICAS, timestamp, ORDERED, ABSENT)]
    return *map(came, frames), *earlier


def conversations():
    """Lines, records, and then what is written: records, results, and how it ends."""
    out, rdp = "out (1)\n", "rdp (1)\n"
    request, read = asks(1001, ORDERED, OUT), asks(1001, READ_ONLY, RDP)
    timer, done = timer_begins(1, FIRST), replied((0, 1, 2), 1001, ORDERED, DONE)
    yield "no line", "", done, (), "", 0, ""
    yield "a write that three replicas answer", out, done, (request, timer), "done\n", 0, ""
    yield "a read", rdp, replied((3, 0, 2), 1001, READ_ONLY, FOUND), (read, timer), "found (1)\n", 0, ""
    yield (
        "lines that call nothing, and a refused one", f"# none\n\nout (1\r\n{out}", done, (request, timer),
        "! line 3: refused 6 at byte 6\ndone\n", 0, "",
    )
    yield "a refused line alone, and no record is read", "oops", done, (), "! line 1: refused 6 at byte 1\n", 0, ""
    yield (
        "what tells nothing", out, (*told_nothing(), linked(3), timer_over(2), *dropped(), *done), (request, timer),
        "done\n", 0, "",
    )
    yield (
        "a timer that is over", rdp,
        (timer_over(1), timer_over(1), timer_over(2), *replied((0, 1, 2), 1001, ORDERED, FOUND)),
        (
            read, timer, asks(1001, ORDERED, RDP), timer_begins(2, 2 * FIRST), asks(1001, ORDERED, RDP),
            timer_begins(3, 4 * FIRST),
        ),
        "found (1)\n", 0, "",
    )
    yield (
        "a read on which the replicas disagree", rdp,
        (
            *replied((0, 1), 1001, READ_ONLY, FOUND, 1), *replied((2, 3), 1001, READ_ONLY, ABSENT, 2),
            *replied((0, 2, 3), 1001, ORDERED, ABSENT, 3),
        ),
        (read, timer, asks(1001, ORDERED, RDP)), "absent\n", 0, "",
    )
    yield (
        "two calls", out + rdp, (*done, timer_over(1), *replied((1, 2, 3), 1002, READ_ONLY, FOUND)),
        (request, timer, asks(1002, READ_ONLY, RDP), timer_begins(2, FIRST)), "done\nfound (1)\n", 0, "",
    )
    yield "two replies", out, (*done[:2], *done[:2]), (request, timer), "", 3, UNANSWERED
    yield (
        "three replies with two answers", out, (*done[:2], *replied((2,), 1001, ORDERED, ABSENT)), (request, timer),
        "", 3, UNANSWERED,
    )
    yield "records that are cut", out, (*done[:2], done[2][:-1]), (request, timer), "", 3, UNANSWERED


def records_of(room, texts):
    """Files from which records are read and to which they are written."""
    (room / "in").write_bytes(b"".join(texts))
    (room / "out").touch()


def fault_of_conversation(program, above, script, records, wanted, results, status, said):
    """The process writes exactly these records and results, and ends so."""

    def test(room):
        records_of(room, records)
        ended = run([program, "client", "--above", str(above), "c0.toml", "in", "out"], room, script.encode())
        written, due = (room / "out").read_bytes(), b"".join(wanted)
        if ended != (status, results.encode(), said.encode()):
            return f"wanted status {status}, {shown(results)} and {shown(said)}, got {ended.as_text()}"
        return None if written == due else f"wanted the records {shown(due)}, got {shown(written)}"

    return with_files(test)


def fault_of_last(program):
    """The greatest timestamp is the last one."""
    request, timer = asks(LAST, ORDERED, OUT), timer_begins(1, FIRST)
    done = replied((0, 1, 2), LAST, ORDERED, DONE)
    return fault_of_conversation(program, LAST - 1, "out (1)\n" * 2, done, (request, timer), "done\n", 3, SPENT)


def fault_of_clock(program):
    """Without a number the life begins above the milliseconds since 1970, times 2^20."""

    def now():
        return time.time_ns() // 1_000_000 * CALLS

    def test(room):
        records_of(room, ())
        before = now()
        ended = run([program, "client", "c0.toml", "in", "out"], room, b"out (1)\n")
        after = now()
        kind, content, left = first_record((room / "out").read_bytes())
        # Behind the length of the body, its type and its sender.
        timestamp = int.from_bytes(sent(content)[1][7:15], "big")
        wanted = asks(timestamp, ORDERED, OUT) + timer_begins(1, FIRST)
        if ended != (3, b"", UNANSWERED.encode()) or wanted != (room / "out").read_bytes():
            return f"got {ended.as_text()}, and other records"
        return None if before < timestamp <= after + 1 else f"the timestamp {timestamp} is not of the clock's {before}"

    return with_files(test)


# ---- no process begins


def fault_of_refused(program, words, text, status, said):
    """Nothing is written, and no pipe is opened: nobody has their other ends."""

    def test(room):
        (room / "file").write_text(text)
        for name in ("in", "out"):
            os.mkfifo(room / name)
        ended = run([program, "client", *words.split()], room, b"out (1)\n")
        return None if ended == (status, b"", said.encode()) else f"wanted {shown(said)}, got {ended.as_text()}"

    return with_files(test)


def refused():
    replica, client = files()["r0.toml"], files()["c0.toml"]
    begin = client.index("to = [")
    yield "the file of a replica", "file in out", replica, 1, f"{REFUSED}`party` is 0, and has to be from 256 to 257\n"
    yield "an empty file", "file in out", "", 1, f"{REFUSED}`f` is missing\n"
    yield "keys that are left out", "file in out", client[:begin], 1, f"{REFUSED}`to` is missing\n"
    yield (
        "the row of another client", "file in out", client.replace("party = 256", "party = 258"), 1,
        f"{REFUSED}`party` is 258, and has to be from 0 to 3 or from 256 to 257\n",
    )
    yield (
        "a file that is too long", "file in out", client + "#" * 65536, 1,
        f"{REFUSED}the file has more than 65536 bytes\n",
    )
    yield (
        "no timestamp is left", f"--above {LAST} c0.toml in out", "", 1,
        f"{REFUSED}no timestamp is left above {LAST}\n",
    )
    yield (
        "a replica's file and no timestamp", f"--above {LAST} r0.toml in out", "", 1,
        f"{REFUSED}`party` is 0, and has to be from 256 to 257\n",
    )
    yield "keys that aren't there", "nothing in out", "", 1, f"cannot read nothing\n{NOT_THERE}\n"
    yield (
        "keys from the standard input", "- in out", "", 1,
        "cannot read -\nthe standard input is read for the script\n",
    )
    yield "records that aren't there", "c0.toml nothing out", "", 1, f"cannot read nothing\n{NOT_THERE}\n"
    yield (
        "no file for records", "c0.toml file nothing", "", 3,
        f"stopped\nthe file for records can't be opened: {NOT_THERE}\n",
    )


# ---- streams that fail


def fault_of_stream(program, wanted, words="c0.toml in out", **streams):
    """One call is answered, and one of the streams fails."""

    def test(room):
        records_of(room, replied((0, 1, 2), 1001, ORDERED, DONE))
        how = {"given": b"out (1)\n", **streams}
        ended = run([program, "client", "--above", str(ABOVE), *words.split()], room, **how)
        return None if (ended.status, ended.said.decode()) == wanted else ended.as_text()

    return with_files(test)


def fault_of_full(program):
    with open("/dev/full", "wb") as full:
        return fault_of_stream(program, (3, f"stopped\nnot written: {NO_SPACE}"), stdout=full)


def fault_of_unread(program):
    """Nobody reads the results: nothing is said of it."""
    reader, writer = os.pipe()
    os.close(reader)
    try:
        return fault_of_stream(program, (3, ""), stdout=writer)
    finally:
        os.close(writer)


def fault_of_unreadable(program):
    """The script is a folder."""
    folder = os.open(".", os.O_RDONLY)
    try:
        return fault_of_stream(program, (3, IS_FOLDER), stdin=folder, given=None)
    finally:
        os.close(folder)


# ---- clients and replicas


class Client:
    """A client's process. It keeps what it was given and what it wrote, and tells each record that it wrote. Its pipes
    have names, or it finds them below /dev/fd."""

    def __init__(self, program, room, number, told, above=None, is_named=False):
        self.number, self.room, self.told = C0 + number, room, told
        self.given, self.written, self.results = [], b"", b""
        begin = () if above is None else ("--above", str(above))
        self.words = [program, "client", *begin, f"c{number}.toml"]
        self.far, self.give_to, self.take_from, names = self.pipes(number) if is_named else self.inherited()
        pipes = {"stdin": subprocess.PIPE, "stdout": subprocess.PIPE, "stderr": subprocess.PIPE, "bufsize": 0}
        how = {"cwd": room, "start_new_session": True, "pass_fds": () if is_named else self.far, **pipes}
        self.begun = subprocess.Popen([*self.words, *names], **how)
        self.reading = threading.Thread(target=self.read, daemon=True)
        self.reading.start()

    def inherited(self):
        (inner, give_to), (take_from, outer) = os.pipe(), os.pipe()
        return (inner, outer), give_to, take_from, [f"/dev/fd/{inner}", f"/dev/fd/{outer}"]

    def pipes(self, number):
        names = [f"c{number}.in", f"c{number}.out"]
        for it in names:
            if not (self.room / it).exists():
                os.mkfifo(self.room / it)
        # Nobody waits for the other end of a pipe that is opened both to be read and to be written.
        inner, outer = (os.open(self.room / it, os.O_RDWR) for it in names)
        give_to = os.open(self.room / names[0], os.O_WRONLY)
        return (inner, outer), give_to, os.open(self.room / names[1], os.O_RDONLY), names

    def read(self):
        left = b""
        while piece := os.read(self.take_from, 1 << 16):
            self.written += piece
            left += piece
            while found := first_record(left):
                kind, content, left = found
                self.told.put((self.number, kind, content))

    def give(self, text):
        self.given.append(text)
        os.write(self.give_to, text)

    def say(self, line):
        """Gives a line, whose result is told as a record of no kind."""
        self.begun.stdin.write(line.encode())
        threading.Thread(target=self.listen, daemon=True).start()

    def listen(self):
        line = self.begun.stdout.readline()
        self.results += line
        # One that is killed has none.
        if line:
            self.told.put((self.number, None, line))

    def fault(self, script):
        """Ends its script. Tells how it ended, unless well, or that the same input gives other bytes."""
        self.begun.stdin.close()
        status = self.begun.wait(LONGEST)
        self.close()
        self.reading.join(LONGEST)
        said = self.begun.stderr.read()
        if (status, said) != (0, b""):
            return f"client {self.number} ended with {status}: {shown(said)}"
        if "--above" not in self.words:
            return None
        (self.room / "again.in").write_bytes(b"".join(self.given))
        (self.room / "again.out").write_bytes(b"")
        again = run([*self.words, "again.in", "again.out"], self.room, script.encode())
        is_same = again == (0, self.results, b"") and (self.room / "again.out").read_bytes() == self.written
        return None if is_same else f"client {self.number} wrote other bytes when it ran again"

    def close(self):
        for it in self.far:
            os.close(it)
        self.far = ()

    def kill(self):
        end_group(self.begun)
        self.begun.wait()
        self.close()
        self.reading.join(LONGEST)

    def end(self):
        self.kill()
        os.close(self.give_to)
        os.close(self.take_from)
        for stream in (self.begun.stdin, self.begun.stdout, self.begun.stderr):
            stream.close()


class Cluster:
    """Replicas and clients, and who carries the frames between them."""

    def __init__(self, program, room):
        self.program, self.room, self.told, self.parties, self.all = program, room, queue.Queue(), {}, []
        for it in REPLICAS:
            self.place(it, Replica(program, room, it, self.told))

    def place(self, number, process):
        self.parties[number] = process
        self.all.append(process)
        return process

    def client(self, number, **how):
        return self.place(C0 + number, Client(self.program, self.room, number, self.told, **how))

    def carry(self, number, awaited):
        """Carries frames until this client has told a record of this kind, or a result, which it returns. No timer
        ends."""
        while True:
            sender, kind, content = self.told.get(timeout=LONGEST)
            receivers, frame = sent(content) if kind == FRAME else ([], b"")
            for it in receivers:
                self.parties[it].give(came(frame))
            if (sender, kind) == (C0 + number, awaited):
                return content

    def ask(self, number, line):
        """The result of a client's line."""
        self.parties[C0 + number].say(line)
        return self.carry(number, None).decode()

    def end(self):
        for it in self.all:
            it.end()


# Whose line it is, and its result.
TALK = (
    (0, "out (1 2)\n", "done\n"),
    (1, "rdp (1 ?int)\n", "found (1 2)\n"),
    (1, "out (3\n", "! line 2: refused 6 at byte 6\n"),
    (1, "out (3)\n", "done\n"),
    (0, "rdAll 9 (*)\n", "all 1 (3)\n"),
    (0, "inp (3)\n", "found (3)\n"),
    (1, "rdp (3)\n", "absent\n"),
    (1, "cas (4 ?int) (4 5)\n", "swapped true\n"),
    (0, "cas (4 ?int) (4 6)\n", "swapped false\n"),
)


def in_cluster(program, test):
    """Runs a test beside four replicas."""

    def within(room):
        cluster = Cluster(program, room)
        try:
            return test(cluster)
        except queue.Empty:
            return "no answer comes"
        finally:
            cluster.end()

    return with_files(within)


def fault_of_joined(program):
    """Two clients are answered in turn, and the same input gives the same bytes of each process."""

    def test(cluster):
        clients = [cluster.client(0, above=ABOVE, is_named=True), cluster.client(1, above=0)]
        for number, line, result in TALK:
            found = cluster.ask(number, line)
            if found != result:
                return f"client {number} has {shown(found)} for {shown(line)}"
        scripts = ["".join(line for it, line, _ in TALK if it == number) for number in range(CLIENTS)]
        ends = [it.fault(script) for it, script in zip(clients, scripts)]
        ends += (cluster.parties[it].fault() for it in REPLICAS)
        return next(filter(None, ends), None)

    return in_cluster(program, test)


def fault_of_lives(program):
    """A client is killed in an open call, and is started again, each time by the clock. All calls of its later lives are
    answered, and the one that it left open acts once."""

    def test(cluster):
        first = cluster.client(0)
        if cluster.ask(0, "out (1)\n") != "done\n":
            return "the first call has another answer"
        first.say("out (2)\n")
        cluster.carry(0, FRAME)
        first.kill()
        for life, is_named in ((2, True), (3, False)):
            client = cluster.client(0, is_named=is_named)
            answers = [cluster.ask(0, it) for it in (f"out ({life + 1})\n", "rdAll 9 (?int)\n")]
            wanted = f"all {life + 1} " + " ".join(f"({it + 1})" for it in range(life + 1)) + "\n"
            if answers != ["done\n", wanted]:
                return f"life {life} has {answers}"
            if why := client.fault(""):
                return why
        return None

    return in_cluster(program, test)


# ---- at a terminal


def asked(talk):
    """A prompt before each line, a line for each, and on it goes after a refused one."""
    talk.says(PROMPT)
    for line, results in ((b"foo\n", b"! line 1: refused 6 at byte 0\n"), (b"\n", b""), (b"out (1)\n", b"done\n")):
        talk.type(line)
        talk.answers(results)
        talk.says(PROMPT)
    talk.type(END_OF_INPUT)
    talk.ends(0)


def fault_of_terminal(program):
    def test(room):
        records_of(room, replied((0, 1, 2), 1001, ORDERED, DONE))
        names = [str(room / it) for it in ("c0.toml", "in", "out")]
        return fault_of_talk(asked, [program, "client", "--above", str(ABOVE), *names])

    return with_files(test)


def all_rows(programs):
    program = programs.whole
    for about, *case in conversations():
        yield Row(f"{about}: btspace client", lambda it=case: fault_of_conversation(program, ABOVE, *it))
    yield Row("the last timestamp: btspace client", lambda: fault_of_last(program))
    yield Row("a life by the clock: btspace client", lambda: fault_of_clock(program))
    for about, *case in refused():
        yield Row(f"{about}: btspace client", lambda it=case: fault_of_refused(program, *it))
    yield Row("no space for the results: btspace client", lambda: fault_of_full(program))
    yield Row("nobody reads the results: btspace client", lambda: fault_of_unread(program))
    yield Row("the script can't be read: btspace client", lambda: fault_of_unreadable(program))
    yield Row(
        "the records can't be read: btspace client",
        lambda: fault_of_stream(program, (3, IS_FOLDER), words="c0.toml . out"),
    )
    yield Row("four replicas and two clients joined by pipes: btspace client", lambda: fault_of_joined(program))
    yield Row("a client that is started again: btspace client", lambda: fault_of_lives(program))
    yield Row("a prompt at a terminal: btspace client", lambda: fault_of_terminal(program))
