"""How much memory a server has over many steps, by one client: in bursts of orders or one at a time, over a connection
that stays or over one for each burst.

The arguments are the program, a folder, how many steps each way makes where its connection stays, and how many where the
client leaves after each burst. A line is printed for each twentieth of them: what is resident, what was resident at
most since the start, and how many connections there were.
"""

import os
import random
import sys
import time
from collections.abc import Iterator

sys.path.insert(0, os.path.join(os.path.dirname(os.path.abspath(__file__)), "..", "..", "tools"))
from connection import Connection  # noqa: E402
from latency import LONE_NODE  # noqa: E402
from served.clients import Lost  # noqa: E402
from served.server import Server  # noqa: E402

LINES = 20
# Each way's name, whether its connection stays, and the most orders that are sent together: from 1 to so many, at random.
WAYS = [("steady", True, 64, 64), ("bursts", True, 1, 300), ("single", True, 1, 1), ("leaving", False, 1, 300), ("connects", False, 1, 1)]
EVERY = 0.05  # seconds between two looks at the memory


class Memory:
    """What the system says of a process, and the greatest that was seen."""

    def __init__(self, process: int) -> None:
        self.process, self.greatest, self.looked = process, 0.0, 0.0

    def look(self) -> tuple[float, float]:
        """Looks where it has not just looked. What is resident, and the peak that the system noted, both in MB."""
        with open(f"/proc/{self.process}/status", encoding="ascii") as file:
            rows = dict(line.split(":", 1) for line in file)
        now, peak = (int(rows[name].split()[0]) / 1000 for name in ("VmRSS", "VmHWM"))
        self.greatest, self.looked = max(self.greatest, now), time.monotonic()
        return now, peak

    def look_again(self) -> None:
        if time.monotonic() - self.looked > EVERY:
            self.look()


class Caller:
    """Client 1, which resets node 1 again and again. An order that has no reply is sent again."""

    def __init__(self, server: Server) -> None:
        self.server, self.number, self.connections = server, 0, 0
        self.connection: Connection | None = None

    def order(self, count: int, stays: bool) -> None:
        """As many orders as asked for, all sent before the first reply is read."""
        lines = [b'{"op":"reset","client":1,"number":%d,"node":1}\n' % (self.number + place + 1) for place in range(count)]
        done = 0
        while done < count:
            if self.connection is None:
                self.connection, self.connections = Connection(self.server.address), self.connections + 1
            for reply in replies(self.connection, lines[done:]):
                if not reply.startswith(b'{"kind":"finished"'):
                    raise Lost(f"a reset was answered {reply!r}")
                done += 1
            if done < count or not stays:
                self.connection.close()
                self.connection = None
        self.number += count


def replies(connection: Connection, lines: list[bytes]) -> Iterator[bytes]:
    """The replies that come before the connection is over."""
    try:
        connection.socket.sendall(b"".join(lines))
        for _ in lines:
            reply = connection.replies.readline()
            if not reply.endswith(b"\n"):
                return
            yield reply
    except ConnectionError:
        return


def measure(server: Server, steps: int, stays: bool, least: int, most: int) -> None:
    orders = f"{most} orders" if least == most else f"{least} to {most} orders"
    print(f"one client {'whose connection stays' if stays else 'that connects anew each time'}, {orders} sent at once", flush=True)
    choose = random.Random(most)
    print(f"{'steps':>12}{'seconds':>9}{'resident':>12}{'at most':>12}{'connections':>13}", flush=True)
    server.found(LONE_NODE)
    server.must_start()
    memory, caller, begun = Memory(server.process.pid), Caller(server), time.monotonic()
    for line in range(1, LINES + 1):
        while caller.number < steps * line // LINES:
            caller.order(choose.randint(least, most), stays)
            memory.look_again()
        now, peak = memory.look()
        print(f"{caller.number:12,}{time.monotonic() - begun:9.0f}{now:9.1f} MB{peak:9.1f} MB{caller.connections:13,}",
              flush=True)
    if caller.connection:
        caller.connection.close()
    server.must_close()
    legal = server.command("check")[1][0]
    print(f"closed, and `resetd check` says {legal}", flush=True)
    if int(legal.split()[1]) != caller.number + 1:
        raise Lost(f"{caller.number} orders were answered")


def main() -> None:
    program, folder, staying, leaving = sys.argv[1], sys.argv[2], int(sys.argv[3]), int(sys.argv[4])
    chosen = sys.argv[5:] or [way[0] for way in WAYS]
    for name, stays, least, most in (way for way in WAYS if way[0] in chosen):
        steps = staying if stays else leaving
        server = Server(program, f"{folder}/{name}")
        try:
            if steps:
                measure(server, steps, stays, least, most)
        except Lost as lost:
            sys.exit(f"LOST: {lost}")
        finally:
            server.end()


main()
