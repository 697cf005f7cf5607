"""Orders that are sent together: how many are answered in a second over one connection, and how many syncs each takes.

The arguments are a folder of a real file system, the file of a library that counts syncs and has them wait
(syncs.c.txt), and programs, each as NAME=PATH. Over the file as it is and over one whose syncs wait a millisecond
first, with 1, 4, 16, 64 and 256 orders sent before the first answer is read, by 16 clients in turn and by one client:
each program by turns, so that all meet the same noise. An order resets a node without links, and is one step.
"""

import os
import statistics
import sys
import time
from collections.abc import Iterator

sys.path.insert(0, os.path.join(os.path.dirname(os.path.abspath(__file__)), "..", "..", "tools"))
from connection import Connection  # noqa: E402
from served.clients import Lost  # noqa: E402
from served.server import Server  # noqa: E402

CLIENTS, ROUNDS, SECONDS = 16, 3, 0.6
TOPOLOGY = "half = 16777216\n" + "".join(f"[[node]]\nid = {node}\ngroup = 1\n" for node in range(1, CLIENTS + 1))
WAITS = {"file": 0, "+1 ms": 1000}
AT_ONCE = (1, 4, 16, 64, 256)
FINISHED = b'{"kind":"finished"'


class Orders:
    """Resets, by so many clients in turn, each of its own node and numbered on from its last one."""

    def __init__(self) -> None:
        self.numbers = {client: 0 for client in range(1, CLIENTS + 1)}
        self.numbers[CLIENTS] = CLIENTS  # which has added the nodes

    def lines(self, clients: int, count: int) -> Iterator[bytes]:
        for place in range(count):
            client = place % clients + 1
            self.numbers[client] += 1
            yield b'{"op":"reset","client":%d,"number":%d,"node":%d}\n' % (client, self.numbers[client], client)


class Measured:
    """A program that serves a store of its own."""

    def __init__(self, name: str, program: str, folder: str, library: str, disk: str) -> None:
        self.name, self.counter = name, f"{folder}/{name}-{WAITS[disk]}.count"
        with open(self.counter, "wb") as file:
            file.write(bytes(8))
        self.server = Server(program, f"{folder}/{name}-{WAITS[disk]}.store")
        self.server.found(TOPOLOGY)
        environment = {"LD_PRELOAD": library, "SYNC_COUNT": self.counter, "SYNC_WAITS": str(WAITS[disk])}
        if not self.server.start("env", *(f"{variable}={value}" for variable, value in environment.items())):
            raise Lost(f"{name} did not start: {self.server.ended()}")
        self.connection, self.orders = Connection(self.server.address), Orders()

    def syncs(self) -> int:
        with open(self.counter, "rb") as file:
            return int.from_bytes(file.read(8), sys.byteorder)

    def measure(self, clients: int, at_once: int) -> tuple[float, float]:
        """Orders a second, and syncs an order."""
        self.ask(clients, at_once)
        begun, before, count = time.perf_counter(), self.syncs(), 0
        while (spent := time.perf_counter() - begun) < SECONDS:
            self.ask(clients, at_once)
            count += at_once
        return count / spent, (self.syncs() - before) / count

    def ask(self, clients: int, count: int) -> None:
        for reply in self.connection.ask(*self.orders.lines(clients, count)):
            if not reply.startswith(FINISHED):
                raise Lost(f"{self.name}: a reset was answered {reply!r}")

    def close(self) -> None:
        self.connection.close()
        self.server.must_close()


def report(disk: str, clients: int, at_once: int, measured: list[Measured]) -> None:
    rows: dict[str, list[tuple[float, float]]] = {one.name: [] for one in measured}
    for _ in range(ROUNDS):
        for one in measured:
            rows[one.name].append(one.measure(clients, at_once))
    for name, row in rows.items():
        rates, syncs = zip(*row)
        print(f"{disk:6} {clients:3} clients {at_once:4} at once  {name:8}"
              f"{statistics.median(rates):10.0f} a second ({min(rates):.0f} to {max(rates):.0f})"
              f"{statistics.median(syncs):8.3f} syncs each", flush=True)


def main() -> None:
    folder, library, *programs = sys.argv[1:]
    for disk in WAITS:
        measured = [Measured(name, path, folder, library, disk) for name, path in (program.split("=", 1) for program in programs)]
        try:
            for clients in (CLIENTS, 1):
                for at_once in AT_ONCE:
                    report(disk, clients, at_once, measured)
            for one in measured:
                one.close()
        except Lost as lost:
            sys.exit(f"LOST: {lost}")
        finally:
            for one in measured:
                one.server.end()


main()
