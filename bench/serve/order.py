"""Where the time of an order goes: nested stand-ins of a server, each with one part more, beside the server itself.

The arguments are the program and a folder of a real file system. Each stand-in is a process of its own, which waits at a
socket as the server does, and answers each line that one client sends:

  pairs      no server: two pairs of a pwrite and a sync, as an order needs them, in a loop
  echo       answers at once: the socket alone
  lone       answers after two such pairs: the pairs and the socket
  two        the same, where another process makes the pairs, as the server's flusher does: two switches more
  refusal    the server, and a request that it refuses as it reads it: the socket and JSON
  quiet      the server, and an order that it settles, a confirmation
  order      the server, and a reset of a node without links, whose signal it prints meanwhile

All are taken by turns, one call of each, so that they meet the same noise. The rows that are printed sum to the order.
"""

import functools
import os
import socket
import sys
import time
from collections.abc import Callable

sys.path.insert(0, os.path.join(os.path.dirname(os.path.abspath(__file__)), "..", "..", "tools"))
from connection import Connection, Resets  # noqa: E402
from latency import LONE_NODE, growth_of, quantiles  # noqa: E402
from served.clients import Lost  # noqa: E402
from served.server import Server  # noqa: E402

# What is done before a call that is timed, and the call.
Timed = tuple[Callable[[], object], Callable[[], object]]
NAMES = ("pairs", "echo", "lone", "two", "refusal", "quiet", "order")
ROUNDS, IN_A_ROUND, REPLY = 5000, 1, b'{"kind":"finished","step":1000000}\n'
UNREADABLE = b'{"op":"none","client":1,"number":1000000,"node":1}\n'


class Pairs:
    """The writes and syncs of orders, one after the other: what is appended, with a sync of the length too, and a byte
    that says so."""

    def __init__(self, path: str, growth: int) -> None:
        self.file, self.growth, self.place = os.open(path, os.O_CREAT | os.O_RDWR, 0o600), growth, 0
        self.bytes = bytes(growth)

    def make(self, *_: object) -> None:
        os.pwrite(self.file, self.bytes, self.place + 1)
        os.fsync(self.file)
        os.pwrite(self.file, b"\1", self.place)
        os.fdatasync(self.file)
        self.place += self.growth


def stand_in(make_work: Callable[[], Callable[[], object]]) -> Connection:
    """A process that answers each line over one connection, after some work that it prepares itself. A connection to
    it."""
    listener = socket.create_server(("127.0.0.1", 0))
    if os.fork() == 0:
        work, connection = make_work(), listener.accept()[0]
        connection.setsockopt(socket.IPPROTO_TCP, socket.TCP_NODELAY, 1)
        stream = connection.fileno()
        while os.read(stream, 4096):
            work()
            os.write(stream, REPLY)
        os._exit(0)
    host, port = listener.getsockname()
    listener.close()
    return Connection(f"{host}:{port}")


def by_another(work: Callable[[], object]) -> Callable[[], None]:
    """The same work, made by another process each time that this one asks for it, which waits meanwhile."""
    asks, asked = os.pipe()
    answers, answered = os.pipe()
    if os.fork() == 0:
        os.close(asked)
        os.close(answers)
        while os.read(asks, 1):
            work()
            os.write(answered, b"1")
        os._exit(0)
    os.close(asks)
    os.close(answered)

    def ask() -> None:
        os.write(asked, b"1")
        os.read(answers, 1)
    return ask


class Confirmations:
    """Orders of client 2, each of which confirms the epoch that the last reset began."""

    def __init__(self, connection: Connection, resets: Resets) -> None:
        self.connection, self.resets, self.number = connection, resets, 0

    def ask(self) -> None:
        self.number += 1
        reply, = self.connection.ask(b'{"op":"confirm","client":2,"number":%d,"node":1,"epoch":%d}\n'
                                     % (self.number, self.resets.number))
        if not reply.startswith(b'{"kind":"done"'):
            raise Lost(f"a confirmation was answered {reply!r}")


def calls(server: Server, folder: str) -> tuple[int, dict[str, Timed]]:
    """What is timed, by its name, each after what is done before. The server is lent a client, which stays."""
    connection, resets = Connection(server.address), Resets("finished")
    growth = growth_of(server, connection, resets)
    own, lone, two = (Pairs(f"{folder}/{name}", growth) for name in ("pairs", "lone", "two"))
    stand_ins = [stand_in(lambda: nothing), stand_in(lambda: lone.make), stand_in(lambda: by_another(two.make))]
    asks = [functools.partial(it.ask, UNREADABLE) for it in (*stand_ins, connection)]
    reset: Callable[[], object] = functools.partial(resets.ask, connection)
    confirm = Confirmations(connection, resets).ask
    timed: dict[str, Callable[[], object]] = dict(zip(NAMES, [own.make, *asks, confirm, reset]))
    return growth, {name: (reset if name == "quiet" else nothing, call) for name, call in timed.items()}


def nothing() -> None:
    pass


def a_round(prepare: Callable[[], object], call: Callable[[], object]) -> list[float]:
    spent = []
    for _ in range(IN_A_ROUND):
        prepare()
        begun = time.perf_counter()
        call()
        spent.append(time.perf_counter() - begun)
    return spent


def report(growth: int, spent: dict[str, list[float]]) -> None:
    """The halves of all, what lies between one and the next, and the whole in pairs."""
    half = {name: quantiles(times) for name, times in spent.items()}
    for name, (most, rare) in half.items():
        print(f"{name:12}{most * 1e3:9.3f} ms{rare * 1e3:9.3f} ms   p50 and p99 of {ROUNDS * IN_A_ROUND}", flush=True)
    p50 = {name: times[0] * 1e3 for name, times in half.items()}
    parts = [
        (f"two writes ({growth} bytes and 1), each with a sync", p50["pairs"]),
        ("the socket, to a waiting process and back", p50["lone"] - p50["pairs"]),
        ("two switches to another thread and back", p50["two"] - p50["lone"]),
        ("the line read and its reply written as JSON", p50["refusal"] - p50["echo"]),
        ("the rest: the engine and its locks, the ledger, the store", p50["quiet"] - p50["two"] - p50["refusal"] + p50["echo"]),
        ("a signal, which a third thread prints meanwhile", p50["order"] - p50["quiet"]),
    ]
    print()
    for what, part in parts:
        print(f"{what:60}{part:9.3f} ms{part / p50['pairs']:8.2f}", flush=True)
    print(f"{'an order, to its reply':60}{p50['order']:9.3f} ms{p50['order'] / p50['pairs']:8.2f}", flush=True)


def measure(server: Server, folder: str) -> None:
    server.found(LONE_NODE)
    server.must_start()
    growth, timed = calls(server, folder)
    spent: dict[str, list[float]] = {name: [] for name in timed}
    for _ in range(ROUNDS):
        for name, call in timed.items():
            spent[name] += a_round(*call)
    report(growth, spent)


def main() -> None:
    program, folder = sys.argv[1:]
    server = Server(program, f"{folder}/store")
    try:
        measure(server, folder)
    except Lost as lost:
        sys.exit(f"LOST: {lost}")
    finally:
        server.end()


main()
