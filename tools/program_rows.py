"""The rows of tools/test that run the program by words: each word, each option, each status, each output.

What has to come of a row stands in docs/formats.md, or follows from it. None of it was copied from what the program
printed.
"""

import os
import re
import shlex
import tempfile
import tomllib
from pathlib import Path
from typing import NamedTuple
from xml.etree import ElementTree

import party_files
from processes import TOP, Row, bounded, run, shown, tool

refusals = tool("refusals")

CLUSTER, FOUR = TOP / "examples" / "cluster.toml", TOP / "examples" / "schedules" / "four.toml"
FIRST_READ = TOP / "examples" / "schedules" / "first_read.schedule"

SCRIPT = "out (1)\nout (1)\ninp (?int)\nrdAll 64 (*)\nrdp ()\n"
RESULTS = "done\ndone\nfound (1)\nall 1 (1)\nabsent\n"
# What a space of version 1 refuses, and one of version 2 doesn't.
OF_TWO, REFUSED, TAKEN = "out (w1)\ninAll 64 (*)\n", "refused\nrefused\n", "done\nall 1 (w1)\n"
TYPO = "out (1)\nfoo\nrdp (1)\n"
TYPO_SAID = "line 2: refused 6 at byte 0\nno line begins so: f\n"
CAS = 'cas ("k" *) ("k" 1)\ncas ("k" *) ("k" 2)\n'
# A number, a text, bytes, a truth value, a tuple and a wide number.
ALL_KINDS = "06" "010000000000000001" "02000161" "03000200ff" "0401" "0500" "06" + "0" * 31 + "1"
READ = "invoke 0 out (1)\nflush\ninvoke 0 rdp (*)\nflush\n"
READ_REPORT = (
    "accepted 49 client 0 time 1 done\naccepted 64 client 0 time 2 found (1)\n"
    "point 38 client 0 time 1 done\npoint 51 client 0 time 2 found (1)\ntrace 66\n"
)
# Each of its ticks makes replica 1 send a view change, until it has no signature left.
TICKS = "invoke 0 out (1)\ndeliver 0 r1\n" + "tick r1\n" * 65
STOPPED, NO_CONFIGURATION = re.compile(r"stopped\n[^\n]+\n"), re.compile(r"refused 25\n[^\n]+\n")
MISTAKE = re.compile(r"error: [^\n]+\n(.|\n)*")


def config(*lines):
    """The configuration of the cluster of the examples, but for these lines."""
    return refusals.configuration(CLUSTER, [*lines])


def summary(views="0(, \\d+)*", limit=65536):
    """The form of a summary."""
    return re.compile(
        rf"views entered: {views}\nnumbers executed: \d+\nentries used: \d+ of {limit}\nstopped: none\n"
        r"time: \d+\.\d{3} s, \d+ calls a second\n"
    )


def calls(*results):
    """The form of a report of these calls, each of a client, a timestamp and an answer."""
    told = [f"client {client} time {time} {re.escape(answer)}\n" for client, time, answer in results]
    lines = [rf"{kind} \d+ {it}" for kind in ("accepted", "point") for it in told]
    return re.compile("".join(lines) + r"trace \d+\n")


class Case(NamedTuple):
    """Words, what the program reads, and what has to come of it. Results and standard error are a text, several texts
    of which one has to come, or a form."""

    about: str
    words: str
    given: str = ""
    results: object = ""
    status: int = 0
    said: object = ""
    files: dict = {}


def refused(about, words, given, said, results="", files={}):
    return Case(about, words, given, results, 1, said, files)


LOCAL = (
    Case("a script in a file", "local script", "", RESULTS, files={"script": SCRIPT}),
    Case("a script from standard input", "local -", SCRIPT, RESULTS),
    Case("a script from standard input by its path", "local /dev/stdin", SCRIPT, RESULTS),
    Case("an empty script", "local -"),
    Case("blanks, comments and ends of lines", "local -", "# a\n\n  \nout (1)\r\nrdp (1)", "done\nfound (1)\n"),
    Case("two calls of cas", "local -", CAS, "swapped true\nswapped false\n"),
    Case(
        "a full space", "local -", "out (1)\n" * 8192 + "out (2)\ncas (2) (2)\ncas (1) (2)\ninp (1)\nout (2)\n",
        "done\n" * 8192 + "full\nfull\nswapped false\nfound (1)\ndone\n",
    ),
    Case("a full space of version 2", "local --space 2 -", "out (1)\n" * 12289, "done\n" * 12288 + "full\n"),
    Case("a space of version 2", "local --space 2 -", OF_TWO, TAKEN),
    Case("a space of version 2 by one word", "local --space=2 -", OF_TWO, TAKEN),
    Case("a space of version 1", "local --space 1 -", OF_TWO, REFUSED),
    Case("a space of no version", "local -", OF_TWO, REFUSED),
    Case("an upgrade", "local -", OF_TWO + "upgrade\n" + OF_TWO, REFUSED + "done\n" + TAKEN),
    Case("the longest text", "local -", f'out ("{"a" * 1020}")\n', "done\n"),
    refused(
        "a text too long", "local -", f'out ()\nout ("{"a" * 1021}")\n',
        "line 2: refused 3\nan encoding of more than 1,024 bytes\n", "done\n",
    ),
    refused(
        "a number with a zero before it", "local -", "out (01)\n",
        "line 1: refused 6 at byte 6\nno line begins so: out (01\n",
    ),
    refused(
        "too many matches", "local -", "rdAll 65 (*)\n",
        "line 1: refused 6 at byte 7\nno line begins so: rdAll 65\n",
    ),
    refused(
        "a line too long", "local -", "out (1" + " " * 65536 + ")\n",
        "line 1: refused 6 at byte 65536\na line has at most 65536 bytes\n",
    ),
    refused("a refused line ends the run", "local -", TYPO, TYPO_SAID, "done\n"),
    refused("a refused line doesn't end the run", "local --keep-going -", TYPO, TYPO_SAID, "done\nfound (1)\n"),
    refused(
        "each refused line is told", "local --keep-going script", "",
        "line 1: refused 6 at byte 0\nno line begins so: f\n"
        "line 3: refused 6 at byte 5\nno line begins so: out (*\n",
        "done\n", {"script": "foo\nout (1)\nout (*)\n"},
    ),
    refused("both options", "local --keep-going --space 2 -", "# a\nfoo\n" + OF_TWO, TYPO_SAID, TAKEN),
    Case("no refused line to go on after", "local --keep-going -", SCRIPT, RESULTS),
    refused(
        "an escaped name", "local 'a\x1b[2J'", "", "cannot read a\\u{1b}[2J\nNo such file or directory (os error 2)\n"
    ),
)

SHOW = (
    Case("nested values", "show 020501020001780401", "", '(("x") true)\n'),
    Case("an escaped character", "show 0102000109", "", '("\\x09")\n'),
    Case("digits in either case", "show 01030002aBCd", "", "(xabcd)\n"),
    Case("a value of each kind", f"show {ALL_KINDS}", "", '(1 "a" x00ff true () w1)\n'),
    refused("a truth value of none", "show 020501020001780402", "", "refused 5\nthese bytes spell no tuple\n"),
    refused("a byte left over", "show 0000", "", "refused 5\nthe tuple ends after 1 of 2 bytes\n"),
)

TWO_CLIENTS = {"config": config("clients = 2")}
RUN = (
    Case("a script in a file", "run examples/cluster.toml script", "", RESULTS, files={"script": SCRIPT}),
    Case("a script from standard input", "run examples/cluster.toml -", SCRIPT, RESULTS),
    Case("a configuration from standard input", "run - script", config(), RESULTS, files={"script": SCRIPT}),
    Case("an empty script", "run examples/cluster.toml -"),
    Case(
        "two clients at once", "run config -", CAS, ("swapped true\nswapped false\n", "swapped false\nswapped true\n"),
        files=TWO_CLIENTS,
    ),
    Case("the second line is client 1's", "run config -", "out (1)\nupgrade\n", "done\nrefused\n", files=TWO_CLIENTS),
    Case("the first line is client 0's", "run config -", "upgrade\nout (1)\n", "done\ndone\n", files=TWO_CLIENTS),
    Case("seven replicas", "run config -", SCRIPT, RESULTS, files={"config": config("f = 2")}),
    Case("ten replicas", "run config -", SCRIPT, RESULTS, files={"config": config("f = 3")}),
    Case("a full journal", "run config -", "out (1)\n", "", 3, STOPPED, {"config": config("journal = 10")}),
    Case(
        "no room in the journal of seven replicas", "run config -", "out (1)\n", "", 3,
        "stopped\nthe journal is too small for so many operations: each takes at least 8 entries\n",
        {"config": config("f = 2", "journal = 7")},
    ),
    refused(
        "the configuration is judged before the script is read", "run config nothing", "",
        "refused 25\nthe configuration names a faulty party\n", files={"config": config("faulty_replicas = [3]")},
    ),
    refused(
        "the configuration is read before the script", "run nothing nowhere", "",
        "cannot read nothing\nNo such file or directory (os error 2)\n",
    ),
    refused(
        "a script that isn't there", "run examples/cluster.toml nothing", "",
        "cannot read nothing\nNo such file or directory (os error 2)\n",
    ),
    refused("a refused line", "run examples/cluster.toml -", TYPO, TYPO_SAID),
    refused(
        "a script is no configuration", "run script examples/cluster.toml", "", NO_CONFIGURATION,
        files={"script": SCRIPT},
    ),
    Case("a summary", "run --summary examples/cluster.toml -", SCRIPT, RESULTS, said=summary()),
    Case(
        "a summary of another journal", "run --summary config -", "out (1)\n", "done\n", said=summary(limit=1000),
        files={"config": config("journal = 1000")},
    ),
    Case("a silent backup", "run --drill 3=silent examples/cluster.toml -", SCRIPT, RESULTS),
    Case("a stale backup", "run --drill 3=stale examples/cluster.toml -", SCRIPT, RESULTS),
    Case(
        "a silent primary", "run --drill 0=silent --summary examples/cluster.toml -", "out (1)\nrdp (1)\n",
        "done\nfound (1)\n", said=summary(r"0, \d+(, \d+)*"),
    ),
    Case(
        "two liars of seven replicas", "run --drill 3=silent --drill 5=stale config -", SCRIPT, RESULTS,
        files={"config": config("f = 2")},
    ),
)

SCHEDULE = (
    Case("a schedule in a file", "schedule examples/cluster.toml file", "", READ_REPORT, files={"file": READ}),
    Case("a schedule from standard input", "schedule examples/cluster.toml -", READ, READ_REPORT),
    Case("a configuration from standard input", "schedule - file", config(), READ_REPORT, files={"file": READ}),
    Case("an empty schedule", "schedule examples/cluster.toml -", "", "trace 0\n"),
    Case(
        "two clients", "schedule config -",
        'invoke 0 cas ("k" *) ("k" 1)\ninvoke 1 cas ("k" *) ("k" 2)\nflush\n',
        calls((0, 1, "swapped true"), (1, 1, "swapped false")), files=TWO_CLIENTS,
    ),
    refused(
        "a client that the configuration doesn't have", "schedule examples/cluster.toml -", "invoke 1 out (1)\n",
        "line 1: refused 23\nthere is no c1\n",
    ),
    Case("64 signatures", "schedule examples/cluster.toml -", TICKS, "trace 132\n"),
    refused("nothing before a refused step", "schedule --trace examples/cluster.toml -", READ + "wait\n",
            "line 5: refused 23\nbyte 0: no step has this name\n"),
    refused(
        "the configuration is read before the schedule", "schedule nothing nowhere", "",
        "cannot read nothing\nNo such file or directory (os error 2)\n",
    ),
    refused(
        "a schedule that isn't there", "schedule examples/cluster.toml nothing", "",
        "cannot read nothing\nNo such file or directory (os error 2)\n",
    ),
    refused(
        "the standard input twice", "schedule - -", "", "cannot read -\nthe standard input is read for the first file\n"
    ),
    refused(
        "a schedule is no configuration", "schedule file examples/cluster.toml", "", NO_CONFIGURATION,
        files={"file": READ},
    ),
    Case("no entry to draw", "schedule --picture --from 66 examples/cluster.toml -", READ, "", 2, MISTAKE),
    Case("a picture too high", "schedule --picture examples/cluster.toml -", READ + "tick r1\n" * 2100, "", 2, MISTAKE),
    Case("a trace and a picture", "schedule --trace --picture examples/cluster.toml -", READ, "", 2, MISTAKE),
    Case("a part of no picture", "schedule --from 1 examples/cluster.toml -", READ, "", 2, MISTAKE),
)

KEYS = (
    refused("a configuration that isn't there", "keys nothing folder", "",
            "cannot read nothing\nNo such file or directory (os error 2)\n"),
    refused("a script is no configuration", "keys - folder", SCRIPT, NO_CONFIGURATION),
    refused("a mistake beside no seed", "keys - folder", "f = 1\nclients = 1\nperiod = 2\n",
            "refused 25\n`period` is no key of a configuration\n"),
    Case("a folder that can't be made", "keys examples/cluster.toml /dev/null/keys", "", "", 3, STOPPED),
)

CASES = (*LOCAL, *SHOW, *RUN, *SCHEDULE, *KEYS)


def agrees(wanted, text):
    if isinstance(wanted, re.Pattern):
        return wanted.fullmatch(text)
    return text in wanted if isinstance(wanted, tuple) else text == wanted


def fault_of_case(program, case):
    """Runs a case in a folder with its files and the examples."""
    with tempfile.TemporaryDirectory() as folder:
        room = Path(folder)
        (room / "examples").symlink_to(TOP / "examples")
        for name, text in case.files.items():
            (room / name).write_text(text)
        ended = run([program, *shlex.split(case.words)], room, case.given.encode())
    texts = (it.decode(errors="backslashreplace") for it in (ended.results, ended.said))
    wrong = [] if ended.status == case.status else [f"status {ended.status} and not {case.status}"]
    for name, wanted, text in zip(("results", "standard error"), (case.results, case.said), texts):
        if not agrees(wanted, text):
            wrong.append(f"{name} {shown(text)} and not {shown(getattr(wanted, 'pattern', str(wanted)))}")
    return "; ".join(wrong) or None


def cases(programs):
    for case in CASES:
        yield Row(f"{case.about}: btspace {case.words}", lambda it=case: fault_of_case(programs.whole, it))
    if programs.local:
        for case in (*LOCAL, *SHOW):
            name = f"{case.about}: btspace {case.words}, by the program of local and show"
            yield Row(name, lambda it=case: fault_of_case(programs.local, it))
        for words in ("run examples/cluster.toml -", "schedule examples/cluster.toml -"):
            said = "error: this program has the commands local and show alone\n"
            case = Case("", words, "", "", 2, said)
            name = f"btspace {words}, by the program of local and show"
            yield Row(name, lambda it=case: fault_of_case(programs.local, it))


# What writes results, and what writes a text that was asked for.
PLAYED = "examples/cluster.toml examples/schedules/first_read.schedule"
WRITERS = (
    "local -", "local --keep-going -", "run examples/cluster.toml -", f"schedule {PLAYED}", f"schedule --trace {PLAYED}",
    f"schedule --picture {PLAYED}", "show 00",
)
TELLERS = ("--help", "--version", "help run")
NO_SPACE = "No space left on device (os error 28)\n"


def fault_of_full(program, words):
    with open("/dev/full", "wb") as full:
        ended = run([program, *shlex.split(words)], TOP, b"out (1)\n", stdout=full)
    why = NO_SPACE if words in TELLERS else f"not written: {NO_SPACE}"
    return None if (ended.status, ended.said.decode()) == (3, f"stopped\n{why}") else ended.as_text()


def fault_of_unread(program, words):
    """Nobody reads the results: nothing is said of it."""
    reader, writer = os.pipe()
    os.close(reader)
    try:
        ended = run([program, *shlex.split(words)], TOP, b"out (1)\n", stdout=writer)
    finally:
        os.close(writer)
    return None if (ended.status, ended.said) == (3, b"") else ended.as_text()


def fault_of_unsaid(program, words, status):
    """Standard error is closed, and the status tells alone."""
    ended = run(["sh", "-c", 'exec "$@" 2>&-', "sh", program, *shlex.split(words)], TOP)
    return None if (ended.status, ended.results) == (status, b"") else ended.as_text()


def outputs(programs):
    """The rows of outputs that can't be written."""
    for words in (*WRITERS, *TELLERS):
        yield Row(f"no space for the output: btspace {words}", lambda it=words: fault_of_full(programs.whole, it))
        yield Row(f"nobody reads the output: btspace {words}", lambda it=words: fault_of_unread(programs.whole, it))
    for words, status in (("nope", 2), ("local nothing", 1), ("show 0", 1), ("run nothing nothing", 1)):
        name = f"standard error is closed: btspace {words}"
        yield Row(name, lambda it=words, its=status: fault_of_unsaid(programs.whole, it, its))


def fault_of_memory(program):
    """A space of version 2 with as many long tuples as it holds takes more than 12 MB."""
    script = (f'out ("{"a" * 1000}")\n' * 12288).encode()
    ended = run(bounded([program, "local", "--space", "2", "-"], 12_000), TOP, script)
    done = ended.results.count(b"done\n")
    is_front = 0 < done < 12288 and (b"done\n" * 12288).startswith(ended.results)
    is_right = is_front and (ended.status, ended.said) == (3, b"stopped\nout of memory\n")
    return None if is_right else f"{done} results; {ended.as_text()}"


def fault_of_threads(program):
    """The threads of a cluster of ten replicas take more than 12 MB of addresses."""
    ended = run(bounded([program, "run", "-", "examples/first.bts"], 12_000), TOP, config("f = 3").encode())
    is_right = ended.status == 3 and not ended.results and STOPPED.fullmatch(ended.said.decode())
    return None if is_right else ended.as_text()


def fault_of_bytes(program):
    """A word that isn't UTF-8 is wrong, and shown so far as it can be."""
    ended = run([program, b"local", b"caf\xe9"], TOP)
    is_told = ended.said.startswith(b"error: ") and rb"caf\xe9" in ended.said
    return None if ended.status == 2 and is_told and not ended.results else ended.as_text()


def entries_used(program, drill):
    """How many entries a hundred reads take beside replica 3."""
    words = [program, "run", "--drill", f"3={drill}", "--summary", CLUSTER, "-"]
    ended = run(words, TOP, b"rdp (*)\n" * 100)
    found = re.search(rb"entries used: (\d+) of", ended.said)
    return int(found[1]) if found and ended.results == b"absent\n" * 100 else 0


def fault_of_drills(program):
    """A silent replica gives no reply, and a stale one gives replies to reads, each of which is an entry at the client.
    A read takes 12 entries without it: the call, its request, three replicas that get it and reply, three replies that
    come, and the answer. One that is asked for again takes more, and on a busy machine stale replies come after the last
    call. So the best of a few runs counts."""
    silent = min(entries_used(program, "silent") or 1 << 20 for _ in range(3))
    stale = max(entries_used(program, "stale") for _ in range(3))
    return None if silent <= 1200 < stale else f"{silent} entries beside a silent replica, {stale} beside a stale one"


def fault_of_trace(program):
    """Each entry on a line behind its position, and then the report."""
    ended = run([program, "schedule", "--trace", CLUSTER, FIRST_READ], TOP)
    lines, report = ended.results.decode().splitlines(), READ_REPORT.splitlines()
    entries, told = lines[: -len(report)], lines[-len(report) :]
    is_numbered = all(it.startswith(f"{at} ") for at, it in enumerate(entries))
    first = ["0 invoke c0 time 1 out (1)", "1 sent c0 request c0 time 1 ordered out (1) to r0,r1,r2,r3"]
    is_right = is_numbered and entries[:2] == first and len(entries) == 66 and told == report
    return None if is_right and (ended.status, ended.said) == (0, b"") else ended.as_text()


def titles(program, *options):
    """The positions that the texts tell which a picture shows where the pointer rests, or None if it is no picture."""
    ended = run([program, "schedule", "--picture", *options, CLUSTER, FIRST_READ], TOP)
    if ended.status or ended.said or not ended.results.lstrip().startswith(b"<"):
        return None
    tree = ElementTree.fromstring(ended.results)
    texts = [it.text or "" for it in tree.iter() if it.tag.endswith("title")]
    return {int(it[1]) for it in (re.match(r"(\d+) ", text) for text in texts) if it}


def fault_of_picture(program, options, first, last):
    """A picture is a file of XML, and tells of the entries of its part, and of no others."""
    found = titles(program, *options)
    is_right = found and min(found) == first and max(found) == last
    return None if is_right else f"the positions that it tells of are {sorted(found) if found else found}"


def others(programs):
    program = programs.whole
    yield Row("no memory: btspace local", lambda: fault_of_memory(program))
    yield Row("no memory: btspace run", lambda: fault_of_threads(program))
    yield Row("a word that isn't UTF-8: btspace local", lambda: fault_of_bytes(program))
    yield Row("a silent and a stale replica: btspace run --drill", lambda: fault_of_drills(program))
    yield Row("a trace: btspace schedule --trace", lambda: fault_of_trace(program))
    for options, first, last in (("", 0, 65), ("--from 51", 51, 65), ("--to 9", 0, 9), ("--from 3 --to 9", 3, 9)):
        name = f"a picture: btspace schedule --picture {options}".rstrip()
        yield Row(name, lambda it=options.split(), one=first, other=last: fault_of_picture(program, it, one, other))


# What `keys` says at its end, and what it refuses.
KEPT_APART = "the seed of the configuration gives all keys: keep it apart, and give each party its own file alone\n"
KEPT_NOWHERE = "the keys are of a fresh seed, which is kept nowhere: give each party its own file alone\n"
SEED = "000102030405060708090a0b0c0d0e0f101112131415161718191a1b1c1d1e1f"


def files_in(folder):
    return {it.name: it.read_text() for it in folder.iterdir()}


def dealt(program, room, text, folder="keys"):
    """Runs `keys` on the configuration of this text, from standard input."""
    return run([program, "keys", "-", folder], room, text.encode())


def in_room(test):
    with tempfile.TemporaryDirectory() as room:
        return test(Path(room))


def fault_of_files(program, faults, clients, period):
    """The files are those that Python makes, for their owner alone, and nothing else lies beside them."""

    def test(room):
        text = f'f = {faults}\nclients = {clients}\ncheckpoint = {period}\nseed = "{SEED}"\n'
        ended = dealt(program, room, text, "some/keys")
        if (ended.status, ended.results, ended.said.decode()) != (0, b"", KEPT_APART):
            return ended.as_text()
        folder = room / "some" / "keys"
        found, wanted = files_in(folder), party_files.files_of(bytes.fromhex(SEED), faults, clients, period)
        wrong = sorted(it for it in {*found, *wanted} if found.get(it) != wanted.get(it))
        shared = sorted(it.name for it in folder.iterdir() if it.stat().st_mode & 0o777 != 0o600)
        return f"wrong files {wrong}, of other modes {shared}" if wrong or shared else None

    return in_room(test)


def fault_of_overwriting(program):
    """One file that is there is enough: no other is written, and it stays."""

    def test(room):
        folder = room / "keys"
        folder.mkdir()
        for name in ("r0.toml", "r3.toml", "c0.toml"):
            (folder / name).write_text("mine")
            ended = dealt(program, room, config())
            said = f"error: {name} is there already, and no file is written over\n"
            if (ended.status, ended.said.decode(), files_in(folder)) != (2, said, {name: "mine"}):
                return f"{name}: {ended.as_text()}, {sorted(files_in(folder))}"
            (folder / name).unlink()
        first, again = dealt(program, room, config()), dealt(program, room, config())
        is_kept = files_in(folder) == party_files.files_of(bytes.fromhex(SEED), 1, 1)
        return None if (first.status, again.status, is_kept) == (0, 2, True) else again.as_text()

    return in_room(test)


def fault_of_fresh_seed(program):
    """Without a seed the keys of two parties agree, and those of two runs differ."""

    def test(room):
        text = "f = 1\nclients = 2\n"
        ended = [dealt(program, room, text, it) for it in ("one", "two")]
        if any((it.status, it.said.decode()) != (0, KEPT_NOWHERE) for it in ended):
            return ended[0].as_text()
        one, two = (files_in(room / it) for it in ("one", "two"))
        keys = {name: tomllib.loads(it) for name, it in one.items()}
        is_shared = keys["r0.toml"]["to"][0] == keys["r1.toml"]["from"][0] and keys["c1.toml"]["to"][3] == keys["r3.toml"]["from"][4]
        is_public = all(it["public"] == keys["c0.toml"]["public"] for it in keys.values())
        is_own = all(
            party_files.public_key(bytes.fromhex(keys[f"r{it}.toml"]["signing_seed"])).hex() == keys["c0.toml"]["public"][it]
            for it in range(4)
        )
        is_fresh = not any(one[it] == two[it] for it in one)
        return None if (is_shared, is_public, is_own, is_fresh) == (True,) * 4 else "wrong keys"

    return in_room(test)


def keys(programs):
    """The rows of the word `keys`."""
    program = programs.whole
    for faults, clients, period in ((1, 1, 16), (1, 3, 4), (2, 2, 16), (3, 256, 1)):
        name = f"the files of {3 * faults + 1} replicas and {clients} clients: btspace keys"
        yield Row(name, lambda f=faults, k=clients, p=period: fault_of_files(program, f, k, p))
    yield Row("no file is written over: btspace keys", lambda: fault_of_overwriting(program))
    yield Row("a fresh seed: btspace keys", lambda: fault_of_fresh_seed(program))


def all_rows(programs):
    yield from cases(programs)
    yield from outputs(programs)
    yield from others(programs)
    yield from keys(programs)
