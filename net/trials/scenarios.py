"""What the tests do to a cluster while its clients call. Each scenario is judged by the histories of its clients alone:
they have to be those of one sequential tuple space, and calls have to go on."""

import random
import signal
import socket
import ssl
import threading
import time
from typing import Callable, NamedTuple

from cluster import BOUND, FIRST_CLIENT, Cluster, Trouble, await_that
from linear import LINEAR, VIOLATED, verdict
from namespaces import why_not
from network import Faults
from space import INT, inp, out, rdp

# Calls of each client before and behind a fault.
CALLS = 12
# So many calls of histories that aren't right are shown.
SHOWN = 100
# What a carrier may take of memory beside floods, in bytes. Without TLS a stranger may say that it is any replica. So
# four links of each of three have a record of 4 MB that hasn't come whole, and one that waits for the child.
MOST_MEMORY = 150 << 20
# Seconds for which a process is paused or a link is cut.
PAUSE = 3


class Scenario(NamedTuple):
    """Its name, what it does, how its cluster is made, and whether it may take minutes: then the gate leaves it out."""

    name: str
    act: Callable
    made: dict = {}
    clients: int = 3
    is_long: bool = False


def judge(histories, wanted=LINEAR):
    found = verdict(histories)
    if found != wanted:
        calls = sorted((it.begin, client, it) for client, history in enumerate(histories) for it in history)
        rows = [f"{it.begin:.4f} {it.end:.4f} client {client}: {it.op.line()}: {it.answer}" for _, client, it in calls]
        raise Trouble("\n".join([f"the histories are {found}, not {wanted}", *rows[:SHOWN]]))


def why_left_out(scenario):
    """Why the machine can't run a scenario, or None if it can."""
    return why_not(scenario.act == disturb) if scenario.made.get("network") == "namespaces" else None


def run(scenario, programs, room, seed):
    """Runs a scenario. Tells how many calls were answered, and the longest pause between two answers."""
    if why_left_out(scenario):
        return "nothing was done"
    with Cluster(programs, room, seed, **scenario.made) as cluster:
        load = cluster.load(scenario.clients)
        load.go_on(CALLS, "at first")
        told = scenario.act(cluster, load)
        histories = load.stop()
        judge(histories)
        answered = sum(it.answered() for it in load.clients)
        return f"{answered} calls, longest pause {load.longest_pause():.1f} s" + (f"; {told}" if told else "")


def nothing(cluster, load):
    load.go_on(3 * CALLS, "without a fault")
    for it in range(cluster.count):
        if not cluster.health(it)[1]:
            raise Trouble(f"r{it} says that it is not linked")


def kill(*numbers):
    def act(cluster, load):
        for it in numbers:
            cluster.kill(it)
        load.go_on(CALLS, f"without replicas {numbers}")

    return act


def pause(number):
    """A replica stands still for seconds, and goes on. Then another one dies, so that it is needed."""

    def act(cluster, load):
        cluster.replicas[number].send(signal.SIGSTOP)
        time.sleep(PAUSE)
        cluster.replicas[number].send(signal.SIGCONT)
        load.go_on(CALLS, "after the pause")
        cluster.kill(3)
        load.go_on(CALLS, "without replica 3")

    return act


def cut_one_link(cluster, load):
    """The link between the primary and a backup, in both directions; then it is healed, and the primary dies."""
    pairs = [("r0", 2), ("r2", 0)]
    cluster.network.cut(pairs)
    load.go_on(CALLS, "without a link")
    cluster.network.heal(pairs)
    cluster.await_links([2])
    cluster.kill(0)
    load.go_on(CALLS, "without the primary")


def cut_off(cluster, load):
    """A replica loses all its links, and gets them back. It comes as far as the others by their help, and then it is
    needed."""
    cluster.network.cut(cluster.pairs_of(3))
    load.go_on(2 * CALLS, "without replica 3")
    await_that(lambda: not cluster.health(3)[1], "r3 says that it is alone")
    cluster.network.heal(cluster.pairs_of(3))
    cluster.await_links([3])
    cluster.await_executed(3, 0)
    cluster.kill(2)
    load.go_on(CALLS, "with replica 3 again")


def hold_one_direction(cluster, load):
    """Nothing of the primary's comes to one backup, while that one's frames come to the primary."""
    cluster.network.hold([("r0", 1)])
    load.go_on(CALLS, "while replica 1 hears nothing of the primary")
    cluster.network.heal([("r0", 1)])
    load.go_on(CALLS, "after it heard of it")


def lose_one_direction(cluster, load):
    """What the primary sends to one backup vanishes. Neither counts the other as linked then. Once they hear of each
    other again, both are needed."""
    cluster.network.hold([("r0", 1)])
    load.go_on(CALLS, "while replica 1 hears nothing of the primary")
    for it in (0, 1):
        await_that(lambda: "linked=2" in cluster.health(it)[0], f"r{it} counts a link that is cut in one direction")
    load.go_on(CALLS, "while they aren't linked")
    cluster.network.heal([("r0", 1)])
    for it in (0, 1):
        await_that(lambda: "linked=3" in cluster.health(it)[0], f"r{it} is linked again")
    cluster.await_executed(1, 0)
    cluster.kill(2)
    load.go_on(CALLS, "without replica 2")


def disturb(cluster, load):
    """All frames are delayed, so that they overtake each other, and some are lost or repeated."""
    cluster.network.disturb(cluster.network.routes(), Faults(delay=0.05, lost=0.02, repeated=0.05))
    load.go_on(CALLS, "while frames are disturbed")
    cluster.network.heal(cluster.network.routes())
    load.go_on(CALLS, "afterwards")


def greeting(source):
    return b"\0\0\0\3\0" + source.choice((0, 1, 2, 3, 256, 300, 600, 65535)).to_bytes(2, "big")


def noise_records(source):
    """Records of each kind, with noise in them."""
    for _ in range(100):
        content = source.randbytes(source.randrange(400))
        yield (1 + len(content)).to_bytes(4, "big") + source.choice(b"\0\1\2\3\x80").to_bytes(1, "big") + content


# What strangers send to a port.
NOISE = {
    "bytes": lambda source: source.randbytes(70_000),
    "records": lambda source: greeting(source) + b"".join(noise_records(source)),
    "longest": lambda source: greeting(source) + (4_194_305).to_bytes(4, "big") + b"\1" + bytes(4_194_304),
    "promises": lambda source: greeting(source) + b"\xff\xff\xff\xff",
    "silence": lambda source: b"",
}


def flood(ports, seed, way, is_over):
    """Sends noise again and again. One of the ways lets links stand open and sends nothing."""
    source, links = random.Random(f"{seed} {way}"), []
    # Clients are threads beside this one, and are to be hindered by the noise alone.
    texts = [NOISE[way](source) for _ in range(8)]
    while not is_over.is_set():
        try:
            link = socket.create_connection(("127.0.0.1", source.choice(ports)), 2)
            link.sendall(source.choice(texts))
            if way == "silence":
                links = links[-200:] + [link]
            else:
                link.close()
        except OSError:
            pass
        time.sleep(0.002)


def floods(cluster, load):
    """Noise on each port, by six strangers at once: five ways on those of replicas, and one on those of metrics."""
    is_over, links, metrics = threading.Event(), cluster.ports[: cluster.count], cluster.ports[cluster.count :]
    strangers = [(links, cluster.seed, way, is_over) for way in NOISE] + [(metrics, cluster.seed, "bytes", is_over)]
    threads = [threading.Thread(target=flood, args=it, daemon=True) for it in strangers]
    for it in threads:
        it.start()
    try:
        time.sleep(PAUSE)
        load.go_on(CALLS, "beside floods")
    finally:
        is_over.set()
        for it in threads:
            it.join(BOUND)
    for number, it in cluster.replicas.items():
        if it.begun.poll() is not None:
            raise Trouble(f"r{number} ended with {it.begun.returncode}")
        if it.most_memory() > MOST_MEMORY:
            raise Trouble(f"the carrier of r{number} took {it.most_memory() >> 20} MB")


def go_on_beside_liar(cluster, load):
    load.go_on(2 * CALLS, "beside a liar")


def call_on(cluster, number, lie):
    """A client that lies, and calls for as long as the cluster lives. Its tuples have three fields, and no template of
    the others matches them."""
    liar = cluster.client(number, lie=lie)

    def run():
        place = 0
        while liar.call(out(number, number, place)) is not None:
            place += 1

    threading.Thread(target=run, daemon=True).start()
    return liar


def lying_clients(cluster, load):
    """One tells each replica another operation at the same time, and one forges frames of others."""
    liars = [call_on(cluster, 6, "splits"), call_on(cluster, 7, "forges")]
    load.go_on(2 * CALLS, "beside lying clients")
    for it in liars:
        await_that(lambda: it.answered() > CALLS, f"{it.name}, which lies, is answered")


def client_that_moves_views(cluster, load):
    """Each of its requests can be opened by one replica alone. It isn't shut out yet, so this tells what it costs.
    Calls may stand for good, since each replica goes on to wait for the request that it could open."""

    def answered_in(seconds):
        before = sum(it.answered() for it in load.clients)
        time.sleep(seconds)
        return (sum(it.answered() for it in load.clients) - before) / seconds

    without = answered_in(5)
    liar = call_on(cluster, 7, "alone")
    beside = answered_in(20)
    liar.process.kill()
    after = answered_in(10)
    for place in range(len(load.clients)):
        load.kill(place)
    view, spent = (cluster.metric(1, name) for name in ("view_wanted", "signatures_spent"))
    rates = f"{without:.0f} answers a second without it, {beside:.1f} beside it, {after:.1f} once it is gone"
    return f"{rates}; view {view}, {spent} signatures of replica 1"


def kill_a_client(cluster, load):
    """A client dies in a call. Nobody knows whether that one acted. The others go on, and it does so in two new
    lives, of which the last is told where to begin. Two lives at once are refused."""
    second = cluster.client(1)
    if second.process.begun.wait(BOUND) != 3 or "is at work" not in second.process.said():
        raise Trouble(f"c1 started twice: {second.process.said()}")
    above = time.time_ns() // 1_000_000 + 3_600_000 << 20
    for place, words in ((0, ()), (-1, ("--above", str(above)))):
        load.kill(place)
        load.go_on(CALLS, "without a client")
        load.add(cluster.client(0, *words))
        load.go_on(CALLS, "in a new life")


def stop_in_order(cluster, load):
    """SIGTERM ends a replica with status 0, and its child with it. Started again with the same keys it is refused."""
    status = cluster.replicas[3].terminate()
    if status != 0:
        raise Trouble(f"r3 ended with {status} by SIGTERM")
    load.go_on(CALLS, "without replica 3")
    cluster.start(3)
    again = cluster.replicas[3]
    if again.begun.wait(BOUND) != 3 or "was started before" not in again.said():
        raise Trouble(f"r3 started again: {again.said()}")


def first_word(cluster, replica, party, certificate):
    """What a replica's carrier says to a dialler that says it is this party, and shows this certificate or none."""
    tls = cluster.room / "tls"
    context = ssl.create_default_context(cafile=tls / "ca.pem")
    if certificate:
        context.load_cert_chain(tls / f"{certificate}.pem", tls / f"{certificate}.key")
    try:
        with socket.create_connection(("127.0.0.1", cluster.ports[replica]), BOUND) as plain:
            with context.wrap_socket(plain, server_hostname=f"r{replica}.btspace") as link:
                link.sendall(b"\0\0\0\3\0" + party.to_bytes(2, "big"))
                return link.recv(100)
    except OSError:
        return b""


def refuse_false_names(cluster, load):
    """With TLS nobody speaks in another party's name, and no replica is taken for another."""
    own, other = FIRST_CLIENT + 6, FIRST_CLIENT + 7
    rows = ((own, "c6", True), (other, "c6", False), (1, "c6", False), (2, "r1", False), (1, None, False))
    for party, certificate, is_taken in rows:
        word = first_word(cluster, 0, party, certificate)
        if (word == b"\0\0\0\x09\2" + bytes(8)) != is_taken:
            raise Trouble(f"party {party} with the certificate of {certificate} is told {word}")
    cluster.ports[0], cluster.ports[1] = cluster.ports[1], cluster.ports[0]
    misled = cluster.client(6, "--log", "info")
    for it in ("r0", "r1"):
        await_that(lambda: f"dial.failed peer={it}" in misled.process.said(), f"a client sees that another is {it}")
    if "link.up peer=r0" in misled.process.said():
        raise Trouble(f"a client takes another replica for r0: {misled.process.said()}")
    load.go_on(CALLS, "with TLS")


THROUGH = {"network": "proxy"}
# Addresses that aren't on loopback take TLS.
APART = {"network": "namespaces", "tls": True}
SCENARIOS = (
    Scenario("four replicas and three clients", nothing),
    Scenario("seven replicas and three clients", nothing, {"faults": 2}),
    Scenario("kill -9 of a backup", kill(2)),
    Scenario("kill -9 of the primary", kill(0)),
    Scenario("kill -9 of the primary and of a backup, of seven", kill(0, 2), {"faults": 2}),
    # README.md of net says what makes it long.
    Scenario("kill -9 of the primary and of the next one, of seven", kill(0, 1), {"faults": 2}, is_long=True),
    Scenario("a backup stands still for seconds, and is needed then", pause(1)),
    Scenario("the primary stands still for seconds, and is needed then", pause(0)),
    Scenario("the link of the primary to a backup is cut and healed, and the primary dies", cut_one_link, THROUGH),
    Scenario("a replica is cut off, and is needed then", cut_off, THROUGH),
    Scenario("a link is held in one direction", hold_one_direction, THROUGH),
    Scenario("frames are delayed, reordered, lost and repeated", disturb, THROUGH),
    Scenario("network namespaces: a link is cut and healed, and the primary dies", cut_one_link, APART),
    Scenario("network namespaces: a replica is cut off, and is needed then", cut_off, APART),
    Scenario("network namespaces: a link is cut in one direction, and is needed then", lose_one_direction, APART),
    Scenario("network namespaces: packets are delayed, reordered, lost and repeated", disturb, APART),
    Scenario("noise and floods on each port", floods),
    Scenario("a client dies in a call, and starts again", kill_a_client),
    Scenario("two clients lie", lying_clients),
    Scenario("a client makes views change", client_that_moves_views, is_long=True),
    Scenario("SIGTERM in order, and no second life of a replica", stop_in_order),
    Scenario("TLS, and false names", refuse_false_names, {"tls": True}),
    *(
        Scenario(f"replica {it} lies: {lie}", go_on_beside_liar, {"liars": {it: lie}})
        for it, lie in ((0, "silent"), (1, "answers"), (0, "equivocates"), (2, "forges"))
    ),
    Scenario("replica 1 lies of pages, and replica 3 was cut off", cut_off, {**THROUGH, "liars": {1: "pages"}}),
)


def find_violation(programs, room, seed):
    """Three of four replicas lie, more than f: clients are told what no space answers, and the checker has to see
    it."""
    with Cluster(programs, room, seed, liars={it: "answers" for it in (1, 2, 3)}) as cluster:
        client = cluster.client(0)
        for op in (out(1, 1), rdp(1, INT), inp(1, INT)) * 3:
            if client.call(op) is None:
                raise Trouble(f"no answer: {client.process.said()}")
        judge([client.calls], VIOLATED)
        return f"{client.answered()} calls"
