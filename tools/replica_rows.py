"""The rows of tools/test about the word `replica`: what one process writes for what it reads, and four of them that are
joined by pipes.

What has to come stands in docs/formats.md, and is computed here by Python's hmac and hashlib.
"""

import contextlib
import os
import queue
import subprocess
import tempfile
import threading
from functools import cache
from pathlib import Path
from time import monotonic as time_now

import party_files
from party_frames import FETCH, FRAME, NEW_VIEW, ORDERED, PAGE, PRE_PREPARE, READ_ONLY, TIMER, VIEW_CHANGE, Party, came
from party_frames import first_record, first_root, goes, linked, long, piece, record, sent, timer_begins, timer_over
from processes import LONGEST, Row, bounded, end_group, run, shown

SEED = bytes(range(32))
REPLICAS = range(4)
CLIENT = party_files.FIRST_CLIENT
# The operations out (1) and rdp (1), and the answers to them.
OUT, RDP = bytes.fromhex("2101010000000000000001"), bytes.fromhex("2201010000000000000001")
DONE, FOUND = b"\x31", bytes.fromhex("3201010000000000000001")
# The milliseconds of a first timer.
FIRST = 2000


@cache
def files():
    """The files of four replicas and one client."""
    return party_files.files_of(SEED, 1, 1)


def party(name):
    return Party(files()[f"{name}.toml"])


def first_request():
    """The client's `out`, for all replicas."""
    return party("c0").request(REPLICAS, 1, ORDERED, OUT)


def with_files(test, period=16):
    """Runs a test in a folder that has the files, with this period."""
    with tempfile.TemporaryDirectory() as folder:
        for name, text in files().items():
            (Path(folder) / name).write_text(text.replace("checkpoint = 16", f"checkpoint = {period}"))
        return test(Path(folder))


def fault_of_input(program, name, given, wanted):
    """The process of this replica writes exactly these bytes, says nothing, and ends with its input."""

    def test(room):
        ended = run([program, "replica", f"{name}.toml"], room, given)
        return None if ended == (0, wanted, b"") else f"wanted {shown(wanted)}, got {ended.as_text()}"

    return with_files(test)


def write_pieces(place, pieces):
    """Writes them one by one. A reader that ends before has its reason."""
    with contextlib.suppress(BrokenPipeError), open(place, "wb", buffering=0) as pipe:
        for it in pieces:
            pipe.write(it)


def run_over(words, room, pieces):
    """Runs a program over pieces, which are written one by one."""
    reader, writer = os.pipe()
    writing = threading.Thread(target=write_pieces, args=(writer, pieces))
    writing.start()
    try:
        return run(words, room, None, stdin=reader)
    finally:
        os.close(reader)
        writing.join()


def told_nothing():
    """Records that tell a replica nothing: of no kind, with a content that the kind can't have, and one too long."""
    kinds = [record(it, b"nothing") for it in (0, 4, 0x7F, 0x80, 0xFF)]
    return *kinds, piece(b""), record(3, b""), record(2, bytes(7)), record(1, bytes(4_194_305))


def dropped():
    """Frames that replica 0 drops: none, or with codes of other keys, for others alone, of a wrong sender, or its own."""
    client, request = party("c0"), first_request()
    stranger = Party(party_files.files_of(bytes(32), 1, 1)["c0.toml"])
    frames = (
        b"", bytes(range(256)), request[:-1], request + b"\0", stranger.request(REPLICAS, 1, ORDERED, OUT),
        client.request([1, 2, 3], 1, ORDERED, OUT), client.request(REPLICAS, 1, ORDERED, OUT[:1]),
        client.request(REPLICAS, 1, READ_ONLY, OUT), party("r2").request([0, 1, 3], 1, ORDERED, OUT),
        party("r0").sealed([1], FETCH, long(0) + bytes(3)),
    )
    return tuple(map(came, frames))


def passed_over():
    """All of these, and no timer that runs."""
    return *told_nothing(), timer_over(1), linked(0), linked(3), *dropped()


def numbered():
    """What the primary sends for the first request: the batch that has it, as number 1 of view 0."""
    batch = b"\x01" + piece(first_request())
    return goes([1, 2, 3], party("r0").sealed([1, 2, 3], PRE_PREPARE, long(0) + long(1) + batch))


def suspected():
    """What replica 1 sends if the request isn't numbered in time: a view change for view 1, signed by its first leaf."""
    first_state = b"\x01" + long(0) + first_root()
    fields = long(1) + long(0) + first_state + bytes(4)
    return goes([0, 2, 3], party("r1").signed(0, VIEW_CHANGE, fields))


def inputs():
    """What a replica reads, and what it writes then."""
    request = came(first_request())
    yield "no input", "r3", (), ()
    yield "records that tell nothing, and one that is cut", "r0", (*passed_over(), request[:-1]), ()
    yield "a request at the primary", "r0", (request,), (numbered(), timer_begins(1, FIRST))
    yield "a request behind what tells nothing", "r0", (*passed_over(), request), (numbered(), timer_begins(1, FIRST))
    yield "a request at a backup", "r1", (request,), (timer_begins(1, FIRST),)
    yield (
        "a primary that is suspected", "r1", (linked(2), request, timer_over(2), timer_over(1)),
        (timer_begins(1, FIRST), suspected(), timer_begins(2, 2 * FIRST)),
    )
    yield (
        "too few links to suspect it", "r1", (linked(1), request, timer_over(1), linked(2), timer_over(1), timer_over(2)),
        (timer_begins(1, FIRST), timer_begins(2, FIRST), suspected(), timer_begins(3, 2 * FIRST)),
    )


# ---- floods

# So many of each of the longest records are more than the process has of addresses, in kilobytes.
FLOOD, ADDRESSES = 8, 12_000


def floods():
    """The longest records of all kinds that are read, of two that aren't, and a frame that is too long by a byte."""
    longest = bytes(4_194_304)
    return *(record(it, longest) for it in (1, 2, 3, 4, 0x80)), record(1, longest + b"\0")


def poured(last):
    """Each record of the flood so many times, and then the last one."""
    for it in floods():
        yield from [it] * FLOOD
    yield last


def fault_of_flood(program):
    """A flood costs no memory and changes nothing."""

    def test(room):
        words = bounded([program, "replica", "r0.toml"], ADDRESSES)
        ended = run_over(words, room, poured(came(first_request())))
        wanted = numbered() + timer_begins(1, FIRST)
        return None if ended == (0, wanted, b"") else f"wanted {shown(wanted)}, got {ended.as_text()}"

    return with_files(test)


# ---- files that no replica has

REFUSED = "refused 25\n"
NOT_THERE = "No such file or directory (os error 2)"
NO_SPACE = "No space left on device (os error 28)\n"


def fault_of_file(program, words, text, status, said):
    """A process that doesn't begin writes nothing, though a request waits for it."""

    def test(room):
        (room / "file").write_text(text)
        ended = run([program, "replica", words], room, came(first_request()))
        return None if ended == (status, b"", said.encode()) else f"wanted {shown(said)}, got {ended.as_text()}"

    return with_files(test)


def wrong_files():
    replica, client = files()["r0.toml"], files()["c0.toml"]
    yield "the file of a client", client, f"{REFUSED}`party` is 256, and has to be from 0 to 3\n"
    yield "an empty file", "", f"{REFUSED}`f` is missing\n"
    yield "four faulty replicas", replica.replace("f = 1", "f = 4"), f"{REFUSED}`f` is 4, and has to be from 1 to 3\n"
    yield (
        "another replica's number", replica.replace("party = 0", "party = 1"),
        f"{REFUSED}`public` has another key of replica 1 than `signing_seed` gives\n",
    )
    yield "a file that is too long", replica + "#" * 65536, f"{REFUSED}the file has more than 65536 bytes\n"


# ---- standard input and output that fail


def fault_of_full(program):
    def test(room):
        with open("/dev/full", "wb") as full:
            ended = run([program, "replica", "r0.toml"], room, came(first_request()), stdout=full)
        return None if (ended.status, ended.said.decode()) == (3, f"stopped\nnot written: {NO_SPACE}") else ended.as_text()

    return with_files(test)


def fault_of_unread(program):
    """Nobody reads the records: nothing is said of it."""

    def test(room):
        reader, writer = os.pipe()
        os.close(reader)
        try:
            ended = run([program, "replica", "r0.toml"], room, came(first_request()), stdout=writer)
        finally:
            os.close(writer)
        return None if (ended.status, ended.said) == (3, b"") else ended.as_text()

    return with_files(test)


def fault_of_unreadable(program):
    """Standard input is a folder."""

    def test(room):
        folder = os.open(room, os.O_RDONLY)
        try:
            ended = run([program, "replica", "r0.toml"], room, None, stdin=folder)
        finally:
            os.close(folder)
        said = b"stopped\nnot read: Is a directory (os error 21)\n"
        return None if ended == (3, b"", said) else ended.as_text()

    return with_files(test)


# ---- four processes


class Process:
    """A replica's process. It keeps what it was given and what it wrote, and tells each record that it wrote."""

    def __init__(self, program, room, number, told):
        self.number, self.given, self.written, self.told = number, [], b"", told
        self.words, self.room = [program, "replica", f"r{number}.toml"], room
        pipes = {"stdin": subprocess.PIPE, "stdout": subprocess.PIPE, "stderr": subprocess.PIPE, "bufsize": 0}
        self.begun = subprocess.Popen(self.words, cwd=room, start_new_session=True, **pipes)
        self.reading = threading.Thread(target=self.read, daemon=True)
        self.reading.start()

    def read(self):
        left = b""
        while piece := self.begun.stdout.read(1 << 16):
            self.written += piece
            left += piece
            while found := first_record(left):
                kind, content, left = found
                self.told.put((self.number, kind, content))

    def give(self, text):
        self.given.append(text)
        self.begun.stdin.write(text)

    def fault(self):
        """Ends its input. Tells how it ended, unless well, or by which bytes the same input gives others."""
        self.begun.stdin.close()
        status = self.begun.wait(LONGEST)
        self.reading.join(LONGEST)
        said = self.begun.stderr.read()
        if (status, said) != (0, b""):
            return f"replica {self.number} ended with {status}: {shown(said)}"
        given = b"".join(self.given)
        for pieces in ((given,), (given[at : at + 1] for at in range(len(given)))):
            if run_over(self.words, self.room, pieces) != (0, self.written, b""):
                return f"replica {self.number} wrote other bytes when it ran again"
        return None

    def end(self):
        end_group(self.begun)
        self.begun.wait()
        self.reading.join(LONGEST)
        for stream in (self.begun.stdin, self.begun.stdout, self.begun.stderr):
            stream.close()


class Four:
    """Four processes, and the frames between them: none goes to a replica that is away or comes from it. No timer is
    over but the first one of each, where that is said."""

    def __init__(self):
        self.told, self.processes = queue.Queue(), []
        # What each sent, as pairs of its number and a frame's type.
        self.away, self.are_first_over, self.sorts = set(), False, set()

    def begin(self, program, room):
        self.processes += (Process(program, room, it, self.told) for it in REPLICAS)

    def present(self):
        return [it for it in self.processes if it.number not in self.away]

    def replies(self, frame):
        """Gives a client's frame to all that are there, and returns the first one that each sends the client."""
        for it in self.present():
            it.give(came(frame))
        found = {}
        while len(found) < len(self.present()):
            self.carry(found, LONGEST)
        return found

    def carry(self, found, seconds):
        """Takes the next record that any of them wrote. Of the frames for the client each replica's first is kept."""
        number, kind, content = self.told.get(timeout=seconds)
        if number in self.away:
            return
        if kind == TIMER and self.are_first_over and content[:8] == long(1):
            self.processes[number].give(timer_over(1))
        receivers, frame = sent(content) if kind == FRAME else ([], b"")
        self.sorts |= {(number, frame[4])} if frame else set()
        for receiver in receivers:
            if receiver == CLIENT:
                found.setdefault(number, frame)
            elif receiver not in self.away:
                self.processes[receiver].give(came(frame))

    def fault(self):
        return next((why for why in (it.fault() for it in self.processes) if why), None)

    def end(self):
        for it in self.processes:
            it.end()


def fault_of_replies(found, time, mode, number, answer):
    """Each answer is that of its own replica."""
    wanted = {it: party(f"r{it}").reply(CLIENT, time, mode, number, answer) for it in found}
    others = [it for it in found if found[it] != wanted[it]]
    return f"at time {time} replicas {others} replied otherwise" if others else None


def with_four(program, test, period=16):
    """Runs a test of four processes. Then each has to write the same bytes again for what it read, byte by byte too."""

    def test_in(room):
        four = Four()
        try:
            four.begin(program, room)
            return test(four) or four.fault()
        except queue.Empty:
            return "no reply comes"
        finally:
            four.end()

    return with_files(test_in, period)


def fault_of_four(program):
    """Four processes answer an `out` and a `rdp`."""

    def test(four):
        for mode, operation, answer in ((ORDERED, OUT, DONE), (READ_ONLY, RDP, FOUND)):
            found = four.replies(party("c0").request(REPLICAS, 1 + mode, mode, operation))
            if why := fault_of_replies(found, 1 + mode, mode, 1, answer):
                return why
        return None

    return with_four(program, test)


def fault_of_view_change(program):
    """The primary is away, and the others begin view 1 without it."""

    def test(four):
        four.away, four.are_first_over = {0}, True
        found = four.replies(first_request())
        lacks = {(1, VIEW_CHANGE), (2, VIEW_CHANGE), (3, VIEW_CHANGE), (1, NEW_VIEW)} - four.sorts
        return f"no frames {lacks}" if lacks else fault_of_replies(found, 1, ORDERED, 1, DONE)

    return with_four(program, test)


def fault_of_transfer(program):
    """A replica that was away for two batches fetches the state of the third one, and then has the reply to that."""

    def test(four):
        client = party("c0")
        four.away = {3}
        for time in (1, 2):
            four.replies(client.request(REPLICAS, time, ORDERED, OUT))
        four.away, found, last = set(), {}, client.request(REPLICAS, 3, ORDERED, OUT)
        for it in four.processes[:3]:
            it.give(came(last))
        end = time_now() + LONGEST
        while 3 not in found:
            if time_now() > end:
                return "replica 3 never replies"
            try:
                four.carry(found, 0.2)
            except queue.Empty:
                # It has the reply with the state, and gives it when the request comes.
                four.processes[3].give(came(last))
        lacks = {FETCH, PAGE} - {sort for _, sort in four.sorts}
        return f"no frames {lacks}" if lacks else fault_of_replies(found, 3, ORDERED, 3, DONE)

    return with_four(program, test, period=1)


def all_rows(programs):
    program = programs.whole
    for about, name, given, wanted in inputs():
        row = f"{about}: btspace replica {name}.toml"
        yield Row(row, lambda it=name, x=b"".join(given), y=b"".join(wanted): fault_of_input(program, it, x, y))
    yield Row("a flood of the longest records: btspace replica", lambda: fault_of_flood(program))
    for about, text, said in wrong_files():
        yield Row(f"{about}: btspace replica", lambda it=text, why=said: fault_of_file(program, "file", it, 1, why))
    for words, why in (("nothing", NOT_THERE), ("-", "the standard input is read for the records")):
        said = f"cannot read {words}\n{why}\n"
        yield Row(f"btspace replica {words}", lambda it=words, why=said: fault_of_file(program, it, "", 1, why))
    yield Row("no space for the output: btspace replica", lambda: fault_of_full(program))
    yield Row("nobody reads the output: btspace replica", lambda: fault_of_unread(program))
    yield Row("the input can't be read: btspace replica", lambda: fault_of_unreadable(program))
    yield Row("four processes that are joined by pipes: btspace replica", lambda: fault_of_four(program))
    yield Row("a view change, and its inputs again: btspace replica", lambda: fault_of_view_change(program))
    yield Row("a transfer, and its inputs again: btspace replica", lambda: fault_of_transfer(program))
