"""How long a start takes over a log of many steps."""

import os
import shutil
import time
from collections.abc import Callable

from connection import Connection, Resets
from served.clients import Lost
from served.ring import NODES, topology
from served.server import Server

MIB = 1 << 20
HALF = 16 * MIB  # the greatest
ONE_RESET = MIB // 16  # more than the log grows by in one
RESEND, NOTHING = b'{"op":"resend"}\n', [b'{"count":0,"kind":"resent"}\n']
TIMEOUT = 60  # seconds within which a reset has to end
ROUNDS = 5
SIZES = {1: MIB, 4: 4 * MIB, 16: HALF - ONE_RESET}  # of a log, by the MiB that it is named by


def measure(growing: Server, scratch: str, shorter: int) -> None:
    """Grows one store, and copies it at each size into the folder; each size is divided by `shorter`."""
    growing.found(topology(HALF, 2))
    resets = Resets("started")
    for name, size in SIZES.items():
        grow(growing, resets, size // shorter)
        store = Server(growing.program, f"{scratch}/{name}")
        shutil.copyfile(growing.store, store.store)
        report(store, name)


def grow(server: Server, resets: Resets, size: int) -> None:
    """Resets the ring until the file has that many bytes and nothing is on its way any more."""
    server.must_start()
    connection = Connection(server.address)
    while os.path.getsize(server.store) < size:
        resets.ask(connection)
        wait_for(NODES, lambda: len(server.new_signals()))
    wait_for(1, lambda: connection.ask(RESEND) == NOTHING)
    connection.close()
    server.must_close()


def wait_for(count: int, come: Callable[[], int]) -> None:
    """Waits until so many have come."""
    until = time.monotonic() + TIMEOUT
    while time.monotonic() < until:
        count -= come()
        if count == 0:
            return
        time.sleep(0.001)
    raise Lost(f"a reset has not come to its end within {TIMEOUT} seconds")


def report(server: Server, name: int) -> None:
    """The least times of several rounds."""
    rounds = [(start(server), check(server), read(server.store)) for _ in range(ROUNDS)]
    started, checked, plain = (min(spent) * 1e3 for spent in zip(*rounds))
    steps = int(server.command("check")[1][0].split()[1])
    print(f"log of {name:2} MiB, {os.path.getsize(server.store):8} bytes, {steps:7} steps: listens after {started:5.0f} ms, "
          f"{started * 1e6 / steps:4.0f} ns a step; check {checked:5.0f} ms; a plain read {plain:4.1f} ms", flush=True)


def start(server: Server) -> float:
    begun = time.perf_counter()
    server.must_start()
    spent = time.perf_counter() - begun
    server.must_close()
    return spent


def check(server: Server) -> float:
    begun = time.perf_counter()
    server.command("check")
    return time.perf_counter() - begun


def read(path: str) -> float:
    begun = time.perf_counter()
    with open(path, "rb", buffering=0) as file:
        while file.read(MIB):
            pass
    return time.perf_counter() - begun
