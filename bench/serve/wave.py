"""How long one wave takes, from a reset to the last signal line, and how many syncs: the greatest ring with chords.

The arguments are a program, a folder of a real file system, and the file of a library that counts syncs and has them wait
(syncs.c.txt). Over the file as it is and over one whose syncs wait a millisecond first. The syncs are those until all is
at rest again, of acknowledgements and receipts after the last signal too.
"""

import os
import statistics
import sys
import time

sys.path.insert(0, os.path.join(os.path.dirname(os.path.abspath(__file__)), "..", "..", "tools"))
from connection import Connection, Resets  # noqa: E402
from opening import HALF, TIMEOUT  # noqa: E402
from served.clients import Lost  # noqa: E402
from served.ring import NODES, topology  # noqa: E402
from served.server import Server  # noqa: E402

WAVES = 21
REST = 0.05  # seconds after the last signal, after which nothing is on its way any more
WAITS = {"file": 0, "+1 ms": 1000}


class Waves:
    """A server over a ring with chords, and resets of its first node, one after the other."""

    def __init__(self, program: str, store: str, library: str, micros: int) -> None:
        self.server, self.counter, self.resets = Server(program, store), f"{store}.count", Resets("started")
        with open(self.counter, "wb") as file:
            file.write(bytes(8))
        self.server.found(topology(HALF, 2))
        environment = {"LD_PRELOAD": library, "SYNC_COUNT": self.counter, "SYNC_WAITS": str(micros)}
        if not self.server.start("env", *(f"{name}={value}" for name, value in environment.items())):
            raise Lost(f"the coordinator did not start: {self.server.ended()}")
        self.connection = Connection(self.server.address)
        self.syncs = 0

    def one(self) -> tuple[float, float, int]:
        """The seconds to the first signal and to the last, and the syncs of all."""
        begun = time.perf_counter()
        self.resets.ask(self.connection)
        first, came = 0.0, 0
        while came < NODES:
            if time.perf_counter() - begun > TIMEOUT:
                raise Lost(f"a reset has not come to its end within {TIMEOUT} seconds")
            came += len(self.server.new_signals())
            first = first or (time.perf_counter() - begun if came else 0.0)
            time.sleep(0.0001)
        last = time.perf_counter() - begun
        time.sleep(REST)
        return first, last, self.new_syncs()

    def new_syncs(self) -> int:
        before = self.syncs
        with open(self.counter, "rb") as file:
            self.syncs = int.from_bytes(file.read(8), sys.byteorder)
        return self.syncs - before

    def close(self) -> None:
        self.connection.close()
        self.server.must_close()


def measure(program: str, scratch: str, library: str, disk: str) -> None:
    waves = Waves(program, f"{scratch}/wave-{WAITS[disk]}", library, WAITS[disk])
    try:
        waves.one()
        firsts, lasts, syncs = zip(*(waves.one() for _ in range(WAVES)))
        first, last, most = (spent * 1e3 for spent in (statistics.median(firsts), statistics.median(lasts), max(lasts)))
        print(f"{disk:5} a wave over {NODES} nodes and {2 * NODES} links: first signal {first:7.1f} ms, last {last:7.1f} ms, at most "
              f"{most:7.1f} ms, {statistics.mean(syncs):.1f} syncs", flush=True)
        waves.close()
    finally:
        waves.server.end()


def main() -> None:
    program, scratch, library = sys.argv[1:]
    try:
        for disk in WAITS:
            measure(program, scratch, library, disk)
    except Lost as lost:
        sys.exit(f"LOST: {lost}")


main()
