"""How long the server waits for a client: each timeout of docs/OPERATING.md, with a client that provokes it."""

import contextlib
import os
import sys
import threading
import time

from support import preloaded
from support.case import Case, until
from support.program import TIMEOUT
from support.serving import Answer, Connection, Serving
from support.stores import ring, topology

LINE, REPLY, SILENCE, CONNECTION, DISCARD = 10, 10, 15, 600, 1
READ = 512  # bytes that the server reads at once
LATE = 30  # seconds by which a busy machine may be late
SHOW: Answer = {"op": "show"}
HALVES = (b'{"op":"re', b'send"}\n')
RESENT = b'{"count":0,"kind":"resent"}\n'


def await_end(connection: Connection) -> bytes:
    """Waits until the server has ended a connection. Returns its output meanwhile."""
    connection.socket.settimeout(SILENCE + LATE + 2)
    said = b""
    with contextlib.suppress(ConnectionResetError):
        while more := connection.socket.recv(65_536):
            said += more
    return said


def ends_of(connection: Connection) -> tuple[int, int]:
    """Returns the ports of a connection, the client's and the server's."""
    return connection.socket.getsockname()[1], connection.socket.getpeername()[1]


def kept(client: int, server: int) -> tuple[int, int] | None:
    """Returns how many bytes the system buffers for a connection, by its ports: those that the client has not read yet, and
    those that the server has not read yet. None if the connection is over."""
    with open("/proc/net/tcp", encoding="ascii") as rows:
        for row in rows:
            fields = row.split()
            if fields[1].endswith(f":{server:04X}") and fields[2].endswith(f":{client:04X}") and fields[3] == "01":
                sent, unread = fields[4].split(":")
                return int(sent, 16), int(unread, 16)
    return None


def backlog(client: int, server: int) -> int | None:
    """Returns the number of bytes that a client has not read, or None if the connection is over."""
    sizes = kept(client, server)
    return sizes[0] if sizes else None


def waits(server: Serving, connection: Connection) -> bool:
    """Returns whether the server has read everything that the client has sent, and each of its threads waits."""
    sizes = kept(*ends_of(connection))
    if sizes is None or sizes[1]:
        return False
    tasks = f"/proc/{server.process.pid}/task"
    states = set[str]()
    for thread in os.listdir(tasks):
        with open(f"{tasks}/{thread}/stat", encoding="utf-8") as file:
            states.add(file.read().rsplit(")", 1)[1].split()[0])
    return states == {"S"}


class Timeouts(Case):
    takes = 25
    rows_read = 0

    def serving(self, nodes: int = 1, env: dict[str, str] | None = None) -> Serving:
        return Serving(self.made(ring(nodes) if nodes > 2 else topology([(1, 1)])), env=env)

    def expect_within(self, seconds: float, begun: float, server: Serving, early: float = 0) -> None:
        """Checks that the wait took as long as this timeout since before the client acted, and that the server serves the next
        client."""
        took = time.monotonic() - begun
        self.assertGreaterEqual(took, seconds - early)
        self.assertLess(took, seconds + LATE)
        self.assertEqual(server.ask({"op": "resend"}), {"count": 0, "kind": "resent"})

    def test_a_client_that_says_nothing(self) -> None:
        with self.serving() as server:
            begun = time.monotonic()
            with server.connect() as connection:
                await_end(connection)
            self.expect_within(SILENCE, begun, server)

    def test_a_client_that_says_nothing_after_a_reply(self) -> None:
        with self.serving() as server, server.connect() as connection:
            for _ in range(2):
                time.sleep(1)
                begun = time.monotonic()
                connection.send(SHOW)
                connection.line()
            await_end(connection)
            self.expect_within(SILENCE, begun, server)

    def test_a_second_client_that_says_nothing(self) -> None:
        """A client that waits meanwhile is served then, with its own timeout."""
        with self.serving() as server, server.connect() as first, server.connect() as second:
            first.send(SHOW)
            first.line()
            first.socket.close()
            begun = time.monotonic()
            second.send(SHOW)
            second.line()
            await_end(second)
            self.expect_within(SILENCE, begun, server)

    def test_a_line_that_trickles(self) -> None:
        """The client sends a byte each half second: the line's timeout begins with its first byte."""
        for first in (list[Answer](), [SHOW]):
            with self.subTest(after=first), Serving(self.made(topology([(1, 1)]), f"store{len(first)}")) as server, \
                    server.connect() as connection:
                connection.send(*first)
                begun = self.trickle(connection)
                self.expect_within(LINE, begun, server)

    def trickle(self, connection: Connection) -> float:
        """Sends a byte each half second until the server ends the connection. Returns when it began."""
        connection.socket.settimeout(0.5)
        begun = time.monotonic()
        while time.monotonic() < begun + LINE + LATE + 2:
            try:
                connection.socket.sendall(b" ")
                while connection.socket.recv(65_536):
                    pass
                return begun
            except TimeoutError:
                continue
            except OSError:
                return begun
        return begun

    def test_the_rest_of_a_line(self) -> None:
        """The client sends a first part and then nothing. It is not answered like the last line of a client that sends no more."""
        with self.serving() as server, server.connect() as connection:
            begun = time.monotonic()
            connection.send(b'{"op":"sh')
            self.assertEqual(await_end(connection), b"")
            self.expect_within(LINE, begun, server)

    def test_each_part_of_a_reply_has_what_is_left(self) -> None:
        """Before each write the system's timeout is set again, so a reply that is sent byte by byte has as much time as one
        that is sent at once."""
        self.needs("a C compiler", preloaded.has_compiler())
        log = self.path("calls")
        environment = preloaded.environment(self.folder, CALLS=log, WAITS=1, PIECE=1)
        with self.serving(env=environment) as server:
            self.assertEqual(server.ask({"op": "resend"}), {"count": 0, "kind": "resent"})
            self.assertEqual(server.close().status, 0)
        with open(log, encoding="ascii") as calls:
            rows = [line.split(" ") for line in calls]
        sockets = {file for name, file, *_ in rows if name == "write-within"}
        calls_made = [name for name, file, *_ in rows if name in ("write-within", "out") and file in sockets]
        written = sum(map(len, ('{"count":0,"kind":"resent"}\n', '{"kind":"closed"}\n')))
        self.assertEqual(calls_made, ["write-within", "out"] * written)

    def test_the_times_that_the_system_is_given(self) -> None:
        """A timeout is set if a read or a write has another one than the last: the rest of the time of a line that has begun,
        not that of a silence. The clock stands still, and is advanced by a second between two parts of the input."""
        self.needs("a C compiler", preloaded.has_compiler())
        log = self.path("calls")
        environment = preloaded.environment(self.folder, CALLS=log, WAITS=1, STILL=1, CLOCK=self.clock(0))
        with self.serving(env=environment) as server, server.connect() as connection:
            self.expect_times(log, [SILENCE])
            parts: list[tuple[bytes, list[int]]] = [
                (b'{"op":', [LINE]), (b'"resend"', [LINE - 1]), (b'}\n', [-REPLY, SILENCE]), (b'{"op":"resend"}\n', []),
                (b"x" * 600, [LINE]), (b"\n", [SILENCE]), (b'{"op":"close"', [LINE]), (b"}\n", [DISCARD])]
            for ahead, (part, times) in enumerate(parts, 1):
                until("a server that waits", lambda: waits(server, connection))
                self.clock(ahead)
                connection.send(part)
                if part.endswith(b"\n"):
                    connection.line()
                self.expect_times(log, times)
            connection.socket.close()
            self.assertEqual(server.ended().status, 0)

    def expect_times(self, log: str, wanted: list[int]) -> None:
        """Checks that exactly these timeouts are set next, in seconds, those of writes as negative numbers."""
        def find_times() -> tuple[list[tuple[str, float]], int] | None:
            with open(log, encoding="ascii") as calls:
                rows = [line.split(" ") for line in calls.readlines()[self.rows_read:]]
            times = [(name, int(millis) / 1_000) for name, _, millis, _ in rows if name.endswith("-within")]
            return (times, len(rows)) if len(times) >= len(wanted) else None
        times, rows = until(f"times to wait {wanted}", find_times)
        self.rows_read += rows
        self.assertEqual(times, [("read-within" if each > 0 else "write-within", abs(each)) for each in wanted])

    def test_lines_that_are_slow_but_in_time(self) -> None:
        """Each takes some seconds, and all together more than any single timeout."""
        with self.serving() as server, server.connect() as connection:
            for _ in range(4):
                for part in (b'{"op"', b':"resend', b'"}\n'):
                    connection.send(part)
                    time.sleep(1.5)
                self.assertEqual(connection.line(), b'{"count":0,"kind":"resent"}\n')

    def test_a_client_that_talks(self) -> None:
        """It sends a line each second, for longer than a silence may last."""
        with self.serving() as server, server.connect() as connection:
            for _ in range(SILENCE + 5):
                connection.send({"op": "resend"})
                self.assertEqual(connection.line(), b'{"count":0,"kind":"resent"}\n')
                time.sleep(1)

    def test_replies_that_are_not_taken(self) -> None:
        """Views of a large ring fill the system's buffers for a client. Ten seconds later the next client is served."""
        self.needs("a C compiler", preloaded.has_compiler())
        with self.serving(64, env=preloaded.environment(self.folder, SEND_BUFFER=4_096)) as server, \
                server.connect(buffer=4_096) as connection, server.connect() as second:
            ends = ends_of(connection)
            second.send({"op": "resend"})
            second.socket.settimeout(0.05)
            sender = threading.Thread(target=self.send_all, args=[connection, b'{"op":"show"}\n' * 5_000], daemon=True)
            sender.start()
            began = looked = moved = time.monotonic()
            size = 0
            while time.monotonic() < began + 120:
                before, looked = looked, time.monotonic()
                if (now := backlog(*ends)) is not None and now != size:
                    size, moved = now, before
                try:
                    self.assertEqual(second.reply(), {"count": 0, "kind": "resent"})
                    break
                except TimeoutError:
                    continue
            self.assertGreater(size, 0)
            # what the system has accepted since then of a waiting reply does not extend its time
            self.expect_within(REPLY, moved, server, early=4)
            sender.join()

    @staticmethod
    def send_all(connection: Connection, text: bytes) -> None:
        try:
            connection.socket.sendall(text)
        except OSError:
            pass

    def test_a_connection_that_lasts(self) -> None:
        """The clock is advanced. The limit is checked before the server waits for a line, so one more line may be answered. The
        second client has as long as the first one, and so has a client that connects years later, and the next one."""
        self.needs("a C compiler", preloaded.has_compiler())
        with self.serving(env=preloaded.environment(self.folder, CLOCK=self.clock(0))) as server:
            for begun in (0, 10_000, 300_000_000, 300_010_000):
                self.clock(begun)
                with server.connect() as connection:
                    self.expect_served(connection, lines=2)
                    until("a server that waits", lambda: waits(server, connection))
                    self.clock(begun + CONNECTION - 10 * LATE)
                    self.expect_served(connection, lines=3)
                    until("a server that waits", lambda: waits(server, connection))
                    self.clock(begun + CONNECTION)
                    self.assertLessEqual(self.served_to_the_end(connection), 1)

    def test_a_connection_that_lasts_with_half_a_line(self) -> None:
        """The same for a client that has always begun a line when the server waits for it."""
        self.needs("a C compiler", preloaded.has_compiler())
        environment = preloaded.environment(self.folder, CLOCK=self.clock(0))
        with self.serving(env=environment) as server, server.connect() as connection:
            connection.send(HALVES[0])
            for ahead in (0, CONNECTION - 10 * LATE):
                until("a server that waits", lambda: waits(server, connection))
                self.clock(ahead)
                for _ in range(3):
                    connection.send(HALVES[1] + HALVES[0])
                    self.assertEqual(connection.line(), RESENT)
            until("a server that waits", lambda: waits(server, connection))
            self.clock(CONNECTION)
            self.assertLessEqual(self.served_to_the_end(connection, HALVES[1] + HALVES[0]), 1)

    def test_a_line_that_begins_after_a_slow_one(self) -> None:
        """The next line has its own time, which begins with its own first byte, although that arrived with the end of the
        previous line."""
        self.needs("a C compiler", preloaded.has_compiler())
        environment = preloaded.environment(self.folder, CLOCK=self.clock(0), STILL=1)
        with self.serving(env=environment) as server, server.connect() as connection:
            connection.send(HALVES[0])
            for lines in range(1, 6):
                self.expect_nothing(connection)
                self.clock(lines * (LINE - 3))
                connection.send(HALVES[1] + HALVES[0])
                connection.socket.settimeout(TIMEOUT)
                self.assertEqual(connection.line(), RESENT)

    def test_a_line_that_begins_before_the_reply_to_another(self) -> None:
        """The server's work between two lines does not count as the client's time: a line whose beginning it read before it
        replied to the previous one has its time from that reply on. Each read takes six seconds here, which leaves time for
        one after the reply."""
        self.needs("a C compiler", preloaded.has_compiler())
        order, half = b'{"op":"reset","client":1,"number":1,"node":1}\n', b'{"op":'
        with self.serving(env=preloaded.environment(self.folder, STILL=1, READ_SECONDS=6)) as server, \
                server.connect() as connection:
            connection.send((order + half).ljust(READ + 1))
            self.assertEqual(connection.line(), b'{"kind":"finished","step":2}\n')
            until("a server that waits", lambda: waits(server, connection))
            connection.send(b" ")
            until("a server that waits, or ends it", lambda: waits(server, connection) or not kept(*ends_of(connection)))
            connection.send(b'"resend"}\n')
            self.assertEqual(connection.line(), RESENT)

    def test_lines_that_are_read_slowly(self) -> None:
        """Each line has its own time, even if the server reads for long before it replies: 250 orders, sent at once, are
        answered by a server whose reads take a second each."""
        self.needs("a C compiler", preloaded.has_compiler())
        orders: list[Answer] = [{"op": "reset", "client": 1, "number": number, "node": 1} for number in range(1, 251)]
        with self.serving(env=preloaded.environment(self.folder, STILL=1, READ_SECONDS=1)) as server, \
                server.connect() as connection:
            connection.send(*orders)
            connection.socket.settimeout(TIMEOUT)
            for number in range(1, 251):
                self.assertEqual(connection.line(), b'{"kind":"finished","step":%d}\n' % (number + 1))

    def test_waits_that_are_interrupted(self) -> None:
        """They are interrupted repeatedly, as by stops of the process. Each wait continues, and lasts as long as it may by a
        clock that is only advanced. A connection that is given up keeps no descriptor."""
        self.needs("a C compiler", preloaded.has_compiler())
        with self.serving(env=preloaded.environment(self.folder, CLOCK=self.clock(0), STILL=1, STOPS=1)) as server:
            descriptors = os.listdir(f"/proc/{server.process.pid}/fd")
            for begun, part, most in ((0, b"", SILENCE), (1_000, b'{"op":', LINE), (2_000, b"{", LINE), (3_000, b"", SILENCE)):
                self.clock(begun)
                with server.connect() as connection:
                    self.expect_served(connection, lines=2)
                    connection.send(part)
                    for ahead in (0, most - 1):
                        self.clock(begun + ahead)
                        self.expect_nothing(connection)
                    self.clock(begun + most)
                    self.assertEqual(await_end(connection), b"")
            self.assertLessEqual(len(os.listdir(f"/proc/{server.process.pid}/fd")), len(descriptors) + 1)

    def expect_nothing(self, connection: Connection) -> None:
        """Checks that for some time the server prints nothing and keeps the connection."""
        connection.socket.settimeout(0.5)
        with self.assertRaises(TimeoutError):
            connection.socket.recv(1)

    def clock(self, ahead: int) -> str:
        """Advances the server's clock by this many seconds, and returns its file."""
        with open(self.path("clock"), "r+b" if os.path.exists(self.path("clock")) else "wb") as file:
            file.write(ahead.to_bytes(8, sys.byteorder))
        return self.path("clock")

    @staticmethod
    def served_to_the_end(connection: Connection, text: bytes = b'{"op":"resend"}\n') -> int:
        """Returns how many lines are answered before the connection is ended, at most three."""
        with contextlib.suppress(ConnectionError):
            for served in range(3):
                connection.send(text)
                if not connection.line():
                    return served
            return 3
        return served

    def expect_served(self, connection: Connection, lines: int) -> None:
        for _ in range(lines):
            connection.send({"op": "resend"})
            self.assertEqual(connection.line(), b'{"count":0,"kind":"resent"}\n')
