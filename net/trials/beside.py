"""What stands beside a cluster in net/bench: an echo through the same carriers, etcd, and `btspace run`."""

import re
import shutil
import subprocess
import time
import urllib.request
from pathlib import Path

from cluster import Cluster, Process, Trouble, await_that, free_ports
from timing import EXAMPLES, Callers, write_script

NET = Path(__file__).resolve().parent.parent
MEMBERS = 3


class Echo(Cluster):
    """A cluster whose parties hand on frames, and compute nothing."""

    def words(self, name, *more, **given):
        return super().words(name, *more, **{**given, "btspace": EXAMPLES / "echo"})


def find_etcd():
    """Where etcd is. If it isn't there, Debian's package is laid out in a folder of the build: so no service of it is
    started, and nothing is left on the system."""
    found, laid = shutil.which("etcd"), NET / "out" / "etcd"
    program = Path(found) if found else laid / "usr" / "bin" / "etcd"
    if not program.exists():
        laid.mkdir(parents=True, exist_ok=True)
        fetch(laid)
        package = next(laid.glob("etcd-server_*.deb"))
        subprocess.run(["dpkg-deb", "-x", package, laid], check=True, capture_output=True)
        package.unlink()
    return program


def fetch(folder):
    """Fetches the package. The system may not know its packages yet."""
    download = ["apt-get", "download", "etcd-server"]
    if subprocess.run(download, cwd=folder, capture_output=True).returncode:
        subprocess.run(["apt-get", "update"], capture_output=True)
        subprocess.run(download, cwd=folder, check=True, capture_output=True)


def make_certificates(room):
    """An authority, and one certificate for members and clients, for the name localhost."""
    files = "-keyout {0}.key -out {0}.{1} -newkey ec -pkeyopt ec_paramgen_curve:P-256 -nodes -subj /CN={0}"
    (room / "names").write_text("subjectAltName=DNS:localhost,IP:127.0.0.1\n")
    for words in (
        f"req -x509 {files.format('ca', 'pem')} -addext basicConstraints=critical,CA:TRUE",
        f"req {files.format('c0', 'csr')}",
        "x509 -req -in c0.csr -CA ca.pem -CAkey ca.key -CAcreateserial -extfile names -out c0.pem",
    ):
        subprocess.run(["openssl", *words.split()], cwd=room, check=True, capture_output=True)


class Etcd:
    """Three members on loopback, with their logs on disk."""

    def __init__(self, program, room, tls):
        self.program, self.room, self.tls, self.members = program, room, tls, []
        ports = free_ports(3 * MEMBERS)
        self.peers, self.ports, self.metrics = ports[:MEMBERS], ports[MEMBERS : 2 * MEMBERS], ports[2 * MEMBERS :]
        if tls:
            make_certificates(room)

    def __enter__(self):
        try:
            for it in range(MEMBERS):
                log = self.room / f"m{it}.log"
                self.members.append(Process(self.words(it), log, stdin=subprocess.DEVNULL, cwd=self.room))
            await_that(lambda: self.leader() is not None, "etcd has a leader")
        except BaseException:
            self.end()
            raise
        return self

    def __exit__(self, *_):
        self.end()

    def end(self):
        for it in self.members:
            it.kill()

    def words(self, number):
        scheme = "https" if self.tls else "http"
        url = lambda port: f"{scheme}://localhost:{port}"  # noqa: E731
        members = ",".join(f"m{it}={url(port)}" for it, port in enumerate(self.peers))
        listens = lambda port: f"{scheme}://127.0.0.1:{port}"  # noqa: E731
        options = {
            "name": f"m{number}",
            "data-dir": f"m{number}.data",
            "listen-peer-urls": listens(self.peers[number]),
            "initial-advertise-peer-urls": url(self.peers[number]),
            "listen-client-urls": listens(self.ports[number]),
            "advertise-client-urls": url(self.ports[number]),
            "listen-metrics-urls": f"http://127.0.0.1:{self.metrics[number]}",
            "initial-cluster": members,
            "logger": "zap",
            "log-level": "warn",
        }
        words = [self.program, *(f"--{name}={value}" for name, value in options.items())]
        return words + (self.tls_words() if self.tls else [])

    def tls_words(self):
        own = ("cert-file=c0.pem", "key-file=c0.key", "trusted-ca-file=ca.pem", "client-cert-auth")
        return [f"--{kind}{it}" for kind in ("", "peer-") for it in own]

    def leader(self):
        """The port of the member that leads, where a write takes the fewest hops."""
        for member, metrics, port in zip(self.members, self.metrics, self.ports):
            if member.begun.poll() is not None:
                raise Trouble(f"etcd ended: {member.said()}")
            try:
                with urllib.request.urlopen(f"http://127.0.0.1:{metrics}/metrics", timeout=2) as page:
                    if re.search(r"^etcd_server_is_leader 1$", page.read().decode(), re.MULTILINE):
                        return port
            except OSError:
                pass
        return None

    def figure(self, what, lines_of_clients):
        """What the calls of clients cost that have these lines."""
        words = [EXAMPLES / "etcd_client", str(self.leader()), *(["."] if self.tls else [])]
        return Callers(self.room, what, [(words, lines) for lines in lines_of_clients]).figure(self.members)


def run_rate(program, room, faults, clients, writes):
    """How many writes a second `btspace run` does with so many clients, without its start."""
    (room / "run.toml").write_text(f'f = {faults}\nclients = {clients}\nseed = "{7:064d}"\n')
    lines = [f"out ({it % clients} {it})" for it in range(writes)]
    scripts = {len(script): write_script(room / f"run{len(script)}", script) for script in ([], lines)}
    took = {}
    for count, script in scripts.items():
        begin = time.monotonic()
        subprocess.run([program, "run", "run.toml", script], cwd=room, check=True, stdout=subprocess.DEVNULL)
        took[count] = time.monotonic() - begin
    return writes / max(1e-9, took[writes] - took[0])
