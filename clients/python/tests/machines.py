"""Three machines for the tests of nodes: network namespaces where there can be such, else ports of this one.

On each runs a node, and a member of etcd. Sockets of nodes are files, which clients of any machine reach: so
a machine that is cut off from the others still has its clients.
"""
from __future__ import annotations

import contextlib
import os
import shutil
import signal
import socket
import subprocess
import sys
import tempfile
import time
from collections.abc import Callable, Sequence
from pathlib import Path

MACHINES = 1, 2, 3
LEASE = 2
# The log's name.
PREFIX = "shop/queue"


def server() -> str:
    """Returns where the server is, as the environment names it or as it is built now."""
    named = os.environ.get("COVETRIVET_SERVER")
    if named:
        return named
    words = [str(Path(__file__).resolve().parents[3] / "server" / "build")]
    return subprocess.run(words, stdout=subprocess.PIPE, text=True, check=True).stdout.strip()


def runs(*words: str) -> bool:
    """Whether the command is there, and ends well."""
    with contextlib.suppress(OSError):
        return subprocess.run(words, capture_output=True, check=False).returncode == 0
    return False


def children(process: int) -> list[int]:
    """Returns the ids of the processes that this one has begun."""
    found = []
    for it in Path("/proc").glob("[0-9]*/stat"):
        with contextlib.suppress(OSError):
            # (behind the name, in brackets, come its state and its parent)
            words = it.read_text(encoding="ascii", errors="replace").rpartition(")")[2].split()
            found += [int(it.parent.name)] * (int(words[1]) == process)
    return found


def descendants(process: int) -> list[int]:
    """Returns the ids of this process and of all that it has begun, the first ones first."""
    return [process, *(it for child in children(process) for it in descendants(child))]


class Network:
    """A namespace for each machine, on one bridge. Where none can be made `is_there` is False, and all have
    one address.
    """

    def __init__(self) -> None:
        self.mark = f"cv{os.getpid() % 100000}"
        self.base = f"198.18.{os.getpid() % 256}"
        self.is_there = self.make()

    def make(self) -> bool:
        bridge = f"{self.mark}br"
        if os.getuid() or not runs("ip", "link", "add", bridge, "type", "bridge"):
            return False
        done = runs("ip", "address", "add", f"{self.base}.254/24", "dev", bridge)
        done = done and runs("ip", "link", "set", bridge, "up")
        for it in MACHINES:
            name, end = f"{self.mark}n{it}", f"{self.mark}e{it}"
            for words in (
                f"ip netns add {name}",
                f"ip -n {name} link set lo up",
                f"ip link add {end} type veth peer name eth0 netns {name}",
                f"ip link set {end} master {bridge}",
                f"ip link set {end} up",
                f"ip -n {name} address add {self.base}.{it}/24 dev eth0",
                f"ip -n {name} link set eth0 up",
            ):
                done = done and runs(*words.split())
        if not done:
            self.unmake()
        return done

    @classmethod
    def can_be(cls) -> bool:
        """Whether there can be such a network here."""
        it = cls()
        it.unmake()
        return it.is_there

    def unmake(self) -> None:
        for it in MACHINES:
            runs("ip", "link", "delete", f"{self.mark}e{it}")
            runs("ip", "netns", "delete", f"{self.mark}n{it}")
        runs("ip", "link", "delete", f"{self.mark}br")

    def cut(self, machine: int, is_cut: bool) -> None:
        if not runs("ip", "link", "set", f"{self.mark}e{machine}", "down" if is_cut else "up"):
            raise RuntimeError(f"machine {machine} can't be cut off")

    def on(self, machine: int) -> list[str]:
        """Returns what a command on this machine begins with."""
        return ["ip", "netns", "exec", f"{self.mark}n{machine}"] if self.is_there else []

    def address(self, machine: int) -> str:
        return f"{self.base}.{machine}" if self.is_there else "127.0.0.1"


class Machines:
    """The machines, with their processes, in a `with` block. `package` is the folder that has the package
    covetrivet which nodes are to run. The log is in etcd, or in a PostgreSQL beside the machines.
    """

    def __init__(self, head: Sequence[str], package: str | None = None, postgres: bool = False) -> None:
        self.stack = contextlib.ExitStack()
        self.folder = Path(self.stack.enter_context(tempfile.TemporaryDirectory()))
        self.head = head
        # (often, so that there are many dumps)
        self.dump = 300
        self.postgres = Postgres(self) if postgres else None
        (self.folder / "head").write_text("".join(f"{it}\n" for it in head), encoding="ascii")
        # (by SIGABRT a node tells where each of its threads is)
        more = {"PYTHONDONTWRITEBYTECODE": "1", "PYTHONFAULTHANDLER": "1"}
        self.environment = {**os.environ, "COVETRIVET_SERVER": server(), **more}
        if package:
            self.environment["PYTHONPATH"] = package
        self.processes: dict[str, subprocess.Popen[bytes]] = {}
        self.network = Network()
        self.ports = free_ports(2 * len(MACHINES))

    def __enter__(self) -> Machines:
        return self

    def __exit__(self, *fault: object) -> None:
        for name in list(self.processes):
            self.end(name, signal.SIGKILL if name != "postgres" else signal.SIGQUIT)
        if self.network.is_there:
            self.network.unmake()
        self.stack.close()

    # ---- processes

    def begin(self, name: str, machine: int, words: Sequence[str]) -> None:
        """Begins a process on a machine; on machine 0 beside them."""
        on = self.network.on(machine) if machine else []
        with open(self.folder / f"{name}.log", "ab") as said:
            self.processes[name] = subprocess.Popen(
                [*on, *words], stdout=said, stderr=said, env=self.environment
            )

    def signal(self, name: str, number: int) -> None:
        """Has this come to a process, and to all that it has begun."""
        for it in descendants(self.processes[name].pid):
            with contextlib.suppress(ProcessLookupError):
                os.kill(it, number)

    def end(self, name: str, number: int) -> int | None:
        """Ends a process. Returns its exit status. Where it is killed all is that it has begun, as where its
        machine is lost.
        """
        it = self.processes.get(name)
        if not it:
            return None
        self.signal(name, signal.SIGCONT)
        if number == signal.SIGKILL:
            self.signal(name, number)
        else:
            it.send_signal(number)
        del self.processes[name]
        try:
            it.wait(20)
        except subprocess.TimeoutExpired:
            it.kill()
        return it.wait()

    def log_of(self, name: str) -> str:
        path = self.folder / f"{name}.log"
        return path.read_text(encoding="utf-8", errors="replace") if path.exists() else ""

    # ---- etcd

    def client_url(self, machine: int) -> str:
        port = 2379 if self.network.is_there else self.ports[machine - 1]
        return f"http://{self.network.address(machine)}:{port}"

    def peer_url(self, machine: int) -> str:
        port = 2380 if self.network.is_there else self.ports[machine + 2]
        return f"http://{self.network.address(machine)}:{port}"

    def member(self, machine: int) -> None:
        """Begins the machine's member of etcd, or goes on with what it had written."""
        name, client, peer = f"m{machine}", self.client_url(machine), self.peer_url(machine)
        self.begin(
            f"etcd{machine}",
            machine,
            [
                "etcd", "--name", name, "--data-dir", str(self.folder / name),
                "--listen-client-urls", client, "--advertise-client-urls", client,
                "--listen-peer-urls", peer, "--initial-advertise-peer-urls", peer,
                "--heartbeat-interval", "50", "--election-timeout", "500",
                "--initial-cluster", ",".join(f"m{it}={self.peer_url(it)}" for it in MACHINES),
                "--logger", "zap", "--log-outputs", "stderr",
            ],
        )  # fmt: skip

    def log_words(self, machine: int) -> list[str]:
        """Returns the options by which a node finds its log: the machine's own member first."""
        if self.postgres:
            return ["--postgres", self.postgres.where(), "--prefix", PREFIX]
        members = [machine, *(it for it in MACHINES if it != machine)]
        return ["--etcd", ",".join(map(self.client_url, members)), "--prefix", PREFIX]

    # ---- nodes

    def socket_of(self, machine: int) -> str:
        return str(self.folder / f"n{machine}.sock")

    def node(self, machine: int) -> None:
        words = "--name", f"n{machine}", "--socket", self.socket_of(machine), "--lease", str(LEASE)
        more = "--metrics", f"{self.folder}/n{machine}.metrics", "--head", f"{self.folder}/head"
        command = [sys.executable, "-m", "covetrivet", "node", *words, *more, "--dump", str(self.dump)]
        command += self.log_words(machine)
        self.begin(f"node{machine}", machine, command)

    def leader(self) -> int | None:
        """Returns the machine whose node says that it leads, in the latest term."""
        terms = {self.metric(it, "term") or 0: it for it in MACHINES}
        return terms[max(terms)] if max(terms) else None

    def metric(self, machine: int, name: str) -> float | None:
        """Returns one of the metrics of a node, or None where it tells none."""
        try:
            with socket.socket(socket.AF_UNIX) as it:
                it.settimeout(1)
                it.connect(f"{self.folder}/n{machine}.metrics")
                it.sendall(b"GET /metrics HTTP/1.0\r\n\r\n")
                text = b"".join(iter(lambda: it.recv(65536), b"")).decode("ascii")
        except OSError:
            return None
        found = [it.split(" ")[1] for it in text.splitlines() if it.startswith(f"covetrivet_{name} ")]
        return float(found[0]) if found else None

    def told_by(self, machine: int) -> str:
        """Returns what a node says to who connects, and sends nothing; nothing after a second."""
        with socket.socket(socket.AF_UNIX) as it, contextlib.suppress(OSError):
            it.settimeout(1)
            it.connect(self.socket_of(machine))
            return b"".join(iter(lambda: it.recv(65536), b"")).decode("ascii")
        return ""

    def node_of(self, machine: int) -> int | None:
        """Returns the id of the process that is a node, beside its server."""
        return next(iter(children(self.processes[f"node{machine}"].pid)), None)

    def session_of(self, machine: int) -> int | None:
        """Returns the id of the process of a node's session."""
        node = self.node_of(machine)
        return next(iter(children(node)), None) if node else None


class Postgres:
    """A server beside the machines, with a folder of its own."""

    def __init__(self, machines: Machines) -> None:
        self.machines = machines
        self.programs = max(Path("/usr/lib/postgresql").glob("*/bin"))
        self.folder = machines.stack.enter_context(tempfile.TemporaryDirectory())
        # (it doesn't run as root)
        self.user = ["setpriv", "--reuid=postgres", "--regid=postgres", "--clear-groups"] * (os.getuid() == 0)
        if self.user:
            shutil.chown(self.folder, "postgres")
        self.run("initdb", "-D", f"{self.folder}/data", "-A", "trust", "-U", "shop")
        with open(f"{self.folder}/data/pg_hba.conf", "a", encoding="ascii") as file:
            file.write("host all all all trust\n")
        (self.port,) = free_ports(1)

    def run(self, program: str, *words: str) -> None:
        command = [*self.user, str(self.programs / program), *words]
        subprocess.run(command, check=True, capture_output=True, cwd=self.folder)

    def address(self) -> str:
        network = self.machines.network
        return f"{network.base}.254" if network.is_there else "127.0.0.1"

    def where(self) -> str:
        return f"host={self.address()} port={self.port} user=shop dbname=postgres"

    def begin(self) -> None:
        options = "-c", f"listen_addresses={self.address()}", "-c", f"unix_socket_directories={self.folder}"
        words = [str(self.programs / "postgres"), "-D", f"{self.folder}/data", "-p", str(self.port), *options]
        self.machines.begin("postgres", 0, [*self.user, *words])


def free_ports(many: int) -> list[int]:
    sockets = [socket.socket() for _ in range(many)]
    for it in sockets:
        it.bind(("127.0.0.1", 0))
    ports = [int(it.getsockname()[1]) for it in sockets]
    for it in sockets:
        it.close()
    return ports


def comes(is_so: Callable[[], object], seconds: float) -> bool:
    """Whether this comes to be so within so many seconds."""
    until = time.monotonic() + seconds
    while not is_so():
        if time.monotonic() > until:
            return False
        time.sleep(0.05)
    return True
