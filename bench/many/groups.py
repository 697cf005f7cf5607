"""From a reset to members that talk: 64 with one gateway, some separate services, and one that is notified."""

import asyncio
import contextlib
import os
import select
import statistics
import subprocess
import sys
import time
from collections.abc import Callable, Coroutine, Iterator, Sequence
from typing import Any

from coordinator import ROOT, Json, Server, at_socket, once
from waves import CHORDS, NODES

HERE = os.path.dirname(os.path.abspath(__file__))
CLIENT = 16  # which asks for the resets
Order = Callable[[int], Coroutine[Any, Any, list[Json]]]  # of a reset, by its number


class Lines:
    """What members print, each over a pipe: the moment of each one's last line of a kind."""

    def __init__(self, processes: Sequence[subprocess.Popen[bytes]]) -> None:
        self.moments: list[dict[str, int]] = [{} for _ in processes]
        self.poller, self.pipes = select.poll(), dict[int, dict[str, int]]()
        for moments, process in zip(self.moments, processes):
            assert process.stdout
            self.poller.register(process.stdout, select.POLLIN)
            self.pipes[process.stdout.fileno()] = moments
        self.rest = dict.fromkeys(self.pipes, b"")

    def await_all(self, kind: str, since: int) -> int:
        """Waits until each has a line of a kind after a moment, and answers the last one's moment."""
        while not all(moments.get(kind, 0) > since for moments in self.moments):
            if not (ready := self.poller.poll(120_000)):
                raise SystemExit(f"not all members say: {kind}")
            for number, _ in ready:
                text = os.read(number, 65_536)
                if not text:
                    raise SystemExit(f"a member ended, and did not say: {kind}")
                *lines, self.rest[number] = (self.rest[number] + text).split(b"\n")
                for word, moment in map(bytes.split, lines):
                    self.pipes[number][word.decode()] = int(moment)
        return max(moments[kind] for moments in self.moments)


@contextlib.contextmanager
def running(commands: Sequence[Sequence[str]], others: Sequence[Sequence[str]] = ()) -> Iterator[Lines]:
    """Processes for as long as they are needed; the output of the first ones is read."""
    processes = [subprocess.Popen([sys.executable, *command], stdout=subprocess.PIPE, stderr=subprocess.DEVNULL) for command in commands]
    quiet = [subprocess.Popen([sys.executable, *command], stdout=subprocess.DEVNULL, stderr=subprocess.DEVNULL) for command in others]
    try:
        yield Lines(processes)
    finally:
        for process in [*quiet, *processes]:
            process.kill()
            process.wait()


def resets(order: Order, lines: Lines, count: int) -> tuple[float, float]:
    """Milliseconds from the order of a reset until all talk: the median of some resets, and the most. `order` takes the
    number of the reset."""
    lines.await_all("talks", 0)
    took = []
    for number in range(1, count + 1):
        time.sleep(0.2)
        began = time.monotonic_ns()
        asyncio.run(order(number))
        took.append((lines.await_all("talks", began) - began) / 1e6)
    return statistics.median(took), max(took)


def at_port(server: Server, before: int) -> Order:
    """Orders of a reset at the port, by a client that has this many orders before."""
    return lambda number: once(server.port, {"op": "reset", "client": CLIENT, "number": before + number, "node": 1})


def gateway(program: str, library: str, count: int) -> tuple[float, float]:
    """64 members after `examples/gateway`, over a ring with chords."""
    with Server(program, library, NODES, CHORDS) as server:
        folder = f"{server.folder}/gateway"
        command = [f"{ROOT}/examples/gateway", f"1-{NODES}", "1", server.address, folder, "--signals", server.signals]
        for node in range(1, NODES + 1):
            os.makedirs(f"{folder}/{node}")
        with running([[f"{HERE}/member.py", f"{folder}/{node}"] for node in range(1, NODES + 1)], [command]) as lines:
            return resets(at_port(server, NODES + len(CHORDS)), lines, count)


def services(program: str, library: str, nodes: int, count: int, proxy: str) -> tuple[float, float]:
    """As many services as asked for over a ring: through this proxy, or each with its own client at the port if there is none."""
    links = [(node, node % nodes + 1) for node in range(1, nodes + 1)]
    with Server(program, library, nodes, links) as server:
        address, order = server.address, at_port(server, nodes + len(links))
        if proxy:
            started = server.start_proxy(proxy)
            address, order = started.address, lambda _: once(lambda: at_socket(started.socket), {"op": "reset", "node": 1})
        for node in range(1, nodes + 1):
            os.mkdir(f"{server.folder}/{node}")
        commands = [[f"{HERE}/service.py", str(node), address, f"{server.folder}/{node}", server.signals] for node in range(1, nodes + 1)]
        with running(commands) as lines:
            return resets(order, lines, count)


def one(program: str, library: str, count: int) -> tuple[float, float]:
    """Milliseconds from a signal line to its member's begin, with its work on the disk: the median, and the most."""
    with Server(program, library, 1, []) as server:
        os.mkdir(f"{server.folder}/1")
        took = []
        with running([[f"{HERE}/service.py", "1", server.address, f"{server.folder}/1", server.signals]]) as lines, open(server.signals, "rb") as signals:
            lines.await_all("begins", 0)
            for number in range(2, 2 + count):
                time.sleep(0.1)
                signals.read()
                asked = time.monotonic_ns()
                asyncio.run(once(server.port, {"op": "reset", "client": CLIENT, "number": number, "node": 1}))
                while not signals.read():
                    pass
                line = time.monotonic_ns()
                took.append((lines.await_all("begins", asked) - line) / 1e6)
        return statistics.median(took), max(took)
