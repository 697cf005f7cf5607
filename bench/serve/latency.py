"""How long one command waits for its answer, and how many are answered in a second."""

import os
import time
from collections.abc import Callable

from connection import Connection, Resets
from served.ring import HALF, topology
from served.server import Server

ROUNDS, IN_A_ROUND, AT_ONCE = 50, 100, 16
LONE_NODE = "half = 16777216\n[[node]]\nid = 1\ngroup = 1\n"
SHOW = b'{"op":"show"}\n'


def measure(server: Server) -> None:
    server.found(LONE_NODE)
    server.must_start()
    connection, resets = Connection(server.address), Resets("finished")
    growth = growth_of(server, connection, resets)
    report_times(growth, *times(connection, resets, f"{server.store}.raw", growth))
    for at_once in (1, AT_ONCE):
        report_rate(connection, resets, at_once)
    connection.close()
    server.must_close()


def measure_view(server: Server) -> None:
    """`show` of as many nodes and links as there may be."""
    server.found(topology(HALF, 2))
    server.must_start()
    connection = Connection(server.address)
    half, most = quantiles([spent for _ in range(ROUNDS) for spent in a_round(lambda _: connection.ask(SHOW))])
    print(f"{'show, 64 nodes, 128 links':30}{half * 1e3:9.3f} ms{most * 1e3:9.3f} ms", flush=True)
    connection.close()
    server.must_close()


def growth_of(server: Server, connection: Connection, resets: Resets) -> int:
    """By how many bytes the log grows in a reset."""
    before = os.path.getsize(server.store)
    resets.ask(connection, IN_A_ROUND)
    return (os.path.getsize(server.store) - before) // IN_A_ROUND


def times(connection: Connection, resets: Resets, path: str,
          growth: int) -> tuple[list[float], list[float], list[float]]:
    """Of raw pairs, resets and `show`, round by round, so that all meet the same noise."""
    paired, ordered, shown = list[float](), list[float](), list[float]()
    file = os.open(path, os.O_CREAT | os.O_WRONLY, 0o600)
    for _ in range(ROUNDS):
        paired += a_round(lambda place: raw_pair(file, (len(paired) + place) * growth, growth))
        ordered += a_round(lambda _: resets.ask(connection))
        shown += a_round(lambda _: connection.ask(SHOW))
    os.close(file)
    return paired, ordered, shown


def a_round(call: Callable[[int], object]) -> list[float]:
    """The seconds of each call of a round."""
    spent = []
    for place in range(IN_A_ROUND):
        begun = time.perf_counter()
        call(place)
        spent.append(time.perf_counter() - begun)
    return spent


def raw_pair(file: int, place: int, count: int) -> None:
    os.pwrite(file, bytes(count), place)
    os.fdatasync(file)


def report_times(growth: int, *spent: list[float]) -> None:
    print(f"{'of ' + str(len(spent[0])) + ' each':30}{'p50':>12}{'p99':>12}    in raw pairs")
    pair = quantiles(spent[0])
    for name, row in zip((f"pwrite of {growth}, fdatasync", "reset, to its answer", "show"), map(quantiles, spent)):
        parts = "".join(f"{one * 1e3:9.3f} ms" for one in row)
        pairs = "".join(f"{one / other:8.2f}" for one, other in zip(row, pair))
        print(f"{name:30}{parts}{pairs}", flush=True)


def quantiles(spent: list[float]) -> list[float]:
    """The 50th and the 99th percentile."""
    return [sorted(spent)[len(spent) * percent // 100] for percent in (50, 99)]


def report_rate(connection: Connection, resets: Resets, at_once: int) -> None:
    calls = ROUNDS * IN_A_ROUND // at_once
    begun = time.perf_counter()
    for _ in range(calls):
        resets.ask(connection, at_once)
    rate = calls * at_once / (time.perf_counter() - begun)
    how = "one after the other" if at_once == 1 else f"{at_once} sent before the first answer is read"
    print(f"{rate:.0f} resets a second over one connection, {how}", flush=True)
