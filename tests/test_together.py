"""Orders that are sent together share flights. The flights are counted by the syncs of the file: each has two."""

import contextlib
import functools
import json
import socket
import subprocess
import sys
from collections.abc import Callable, Iterator

from support import preloaded
from support.case import until
from support.program import TIMEOUT, PROGRAM, ROOT, Ended, ran
from support.refusing import ALL_THREADS, FIRST_THREAD, Refusing
from support.served import DONE, FINISHED, Served, answered, refused
from support.serving import Answer, Connection, Serving
from support.stores import ring, topology

sys.path.insert(0, f"{ROOT}/client")
from resetd_client import Gateway, Orders, Port  # noqa: E402
from resetd_client import Served as Seat  # noqa: E402

HALF = 1 << 20  # so large that no checkpoint is made meanwhile
NODES = range(1, 65)
AT_A_START, AT_A_FLIGHT = 2, 2  # the number of syncs
AT_ONCE = 12  # seconds that threads may have waited in vain or paused, if each reply is sent with its flight
NOT_CARRIED_OUT = [{"fault": "OutOfMemory"}, refused(4, "OutOfTurn"), refused(1, "Stopped")]
ALONE = topology([(node, 1) for node in range(1, 17)], half=HALF)


class Together(Served):
    def setUp(self) -> None:
        super().setUp()
        self.needs("a C compiler", preloaded.has_compiler())
        self.calls = self.path("calls")

    def serving(self, topology: str) -> Serving:
        return Serving(self.made(topology), env=preloaded.environment(self.folder, CALLS=self.calls, WAITS=1))

    def expect_at_once(self) -> None:
        """Checks that nothing has waited for a time to pass, however long the machine took, by the times that threads asked
        for. (A flusher waits for callers that it answered before, for a part of their flight's duration.)"""
        waits = [line.split() for line in self.read("calls").splitlines() if line.startswith((b"rest ", b"waited "))]
        self.assertLess(sum(int(micros) for _, _, micros, *_ in waits) / 1e6, AT_ONCE, waits[:20])

    def flights(self, server: Serving, work: Callable[[], object]) -> float:
        """Does something with a quiet server. Returns the number of flights that it took."""
        server.await_quiet()
        before = self.syncs()
        work()
        server.await_quiet()
        return (self.syncs() - before) / 2

    def syncs(self) -> int:
        return sum(line.startswith(b"sync ") for line in self.read("calls").splitlines())

    def resets(self, server: Serving, numbers: range) -> None:
        """Resets a node without links this many times, all in one packet."""
        with server.connect() as connection:
            connection.send(*({"op": "reset", "client": 1, "number": number, "node": 1} for number in numbers))
            for number in numbers:
                self.assertEqual(connection.reply(), answered(FINISHED, 16 + number))

    def test_ten_orders_in_one_packet(self) -> None:
        """They share a flight. A flusher that has not gone to sleep may commit the first ones alone: that happens on a busy
        machine, but not with each of three packets."""
        with self.serving(ALONE) as server:
            self.resets(server, range(1, 2))
            packets = [range(first, first + 10) for first in (2, 12, 22)]
            flights = [self.flights(server, functools.partial(self.resets, server, numbers)) for numbers in packets]
            self.assertEqual(min(flights), 1, flights)
            self.assertLessEqual(max(flights), 2, flights)
            self.expect_closed(server, 31)

    def test_as_many_as_a_flight_takes(self) -> None:
        """The packet arrives in several reads. A flight may begin while the packet still arrives, so two more flights are
        allowed."""
        with self.serving(ALONE) as server:
            self.resets(server, range(1, 2))
            self.assertLessEqual(self.flights(server, lambda: self.resets(server, range(2, 258))), 3)
            self.expect_closed(server, 257)

    def test_fewer_than_the_last_flight_had(self) -> None:
        """Orders that arrive together wake the flusher, whether they are more or fewer than it answered before."""
        with self.serving(ALONE) as server, server.connect() as connection:
            numbers = iter(range(1, 1_000))
            for count in (20, 10, 30, 2, 1, 32, 3, 40, 33, 9):
                each = [next(numbers) for _ in range(count)]
                connection.send(*({"op": "reset", "client": 1, "number": number, "node": 1} for number in each))
                self.assertEqual([connection.reply() for _ in each], [answered(FINISHED, 16 + number) for number in each])
            connection.socket.close()
            self.expect_closed(server, 180)
        self.expect_at_once()

    def test_refusals_of_a_whole_flight(self) -> None:
        """The replies to orders that arrived together are written as a whole, however long they are."""
        with self.serving(ALONE) as server, server.connect() as connection:
            for _ in range(4):
                connection.send(*[b'{"op":"reset","client":1,"number":1,"node":64}\n'] * 512)
                self.assertEqual([connection.reply() for _ in range(512)], [refused(6, "UnknownNode")] * 512)
            connection.socket.close()
            self.expect_closed(server, 0)
        self.expect_at_once()

    def test_a_close_after_nine_orders(self) -> None:
        with self.serving(ALONE) as server, server.connect() as connection:
            connection.send(*({"op": "reset", "client": 1, "number": number, "node": 1} for number in range(1, 10)),
                            {"op": "close"})
            self.assertEqual([connection.reply() for _ in range(10)],
                             [*(answered(FINISHED, 16 + number) for number in range(1, 10)), {"kind": "closed"}])
            self.assertEqual(server.ended().status, 0)
        self.expect_at_once()

    def test_a_stop_between_orders_that_came_together(self) -> None:
        """The sync after their first flight fails: the settled orders get their replies, and each other one is answered
        Stopped."""
        settings = preloaded.environment(self.folder, SYNC_FAILS=AT_A_START + AT_A_FLIGHT + 1, STILL=1)
        with Serving(self.made(ALONE), env=settings) as server, server.connect() as connection:
            numbers = range(1, 301)
            connection.send(*({"op": "reset", "client": 1, "number": number, "node": 1} for number in numbers))
            replies = [connection.reply() for _ in numbers]
            settled = sum("kind" in reply for reply in replies)
            kept = [answered(FINISHED, 16 + number) for number in numbers[:settled]]
            self.assertEqual(replies, kept + [refused(1, "Stopped")] * (300 - settled))
            self.assertTrue(0 < settled < 300, settled)
            connection.send({"op": "close"})
            self.assertEqual(server.ended().status, 3)

    def test_a_client_that_leaves_before_its_replies(self) -> None:
        """Everything that it has sent is carried out."""
        with self.serving(ALONE) as server:
            with server.connect() as connection:
                connection.send(*({"op": "reset", "client": 1, "number": number, "node": 1} for number in range(1, 11)))
            until("ten resets", lambda: bool(server.show()["nodes"][0] == [1, 1, "ready", 0, 10, 0]))
            self.expect_closed(server, 10)

    def test_a_gateway_that_confirms_64_members(self) -> None:
        with self.serving(ring(64, HALF)) as server:
            self.assertEqual(server.order(1, "reset", node=1)["kind"], "started")
            server.await_quiet(1)
            with Orders(Port(server.address, TIMEOUT), 2, self.path("book")) as orders:
                gateway = Gateway(orders.port, orders, {node: [str(node)] for node in NODES}, self.path("members"))
                gateway.look()
                for node in NODES:
                    seat = Seat(self.path(f"members/{node}"))
                    self.assertEqual(seat.wanted(), 1)
                    seat.has_begun()
                self.assertLessEqual(self.flights(server, gateway.look), 10)
            shown = server.show()
            self.assertEqual([row[4:6] for row in shown["nodes"]], [[1, 1]] * 64)
            self.assertEqual(server.order(64, "confirm", 2, node=64, epoch=1)["kind"], DONE)
            self.assertEqual(server.show()["accepted"], shown["accepted"])
            self.expect_closed(server, 64)

    def test_a_topology_that_is_applied(self) -> None:
        with self.serving("half = 1048576\n") as server:
            wanted = self.write("wanted.toml", ring(64, HALF))

            def apply() -> None:
                done = subprocess.run([f"{ROOT}/client/resetctl", "--address", server.address, "--state", self.path("state"),
                                       "--seconds", str(TIMEOUT), "apply", wanted],
                                      capture_output=True, text=True, timeout=TIMEOUT)
                self.assertEqual(done.returncode, 0, done.stderr)
            self.assertLessEqual(self.flights(server, apply), 10)
            self.assertEqual(server.show()["accepted"], 128)
            self.expect_closed(server, 0)
        self.assertEqual(ran("check", self.path("store")).printed, "legal 128\n")


class Refused(Served):
    """Orders that arrive together, while the server is refused one allocation."""

    takes = 30

    @contextlib.contextmanager
    def started(self, store: str, environment: dict[str, str]) -> Iterator[Serving]:
        """Returns a server that has made all allocations of its start, which continue after it prints that it listens."""
        with Serving(store, env=environment) as server:
            server.show()
            yield server

    def orders(self, store: str, refusing: Refusing, threads: range, first: int = 0) -> tuple[list[Answer], int, int]:
        """Sends three orders in one packet, and nothing after it. Returns their replies, and the number of allocations before
        their connection and with it."""
        with self.started(store, refusing.environment(first, threads=threads)) as server:
            before = refusing.count()
            with server.connect() as connection:
                connection.socket.settimeout(TIMEOUT)
                # a connection that lacks memory may already be over
                with contextlib.suppress(OSError):
                    connection.send(*({"op": "reset", "client": 1, "number": number, "node": 1} for number in range(1, 4)))
                    connection.socket.shutdown(socket.SHUT_WR)
                replies, after = self.replies(connection), refusing.count()
            # the number of earlier allocations varies a little; if this one has not happened yet, it does not belong to the close
            refusing.refuse(0, 0)
            # whatever that client received, the next one is served
            self.assertEqual(self.close(server).status, 0)
            return replies, before, after

    def close(self, server: Serving) -> Ended:
        """Closes the server. The number of earlier allocations varies a little, so the refused one may belong to the first
        close, which may have been carried out nevertheless."""
        with contextlib.suppress(AssertionError, OSError, ValueError):
            return server.close()
        try:
            return server.close()
        except OSError:
            return server.ended()

    def replies(self, connection: Connection) -> list[Answer]:
        """Returns all replies. A connection for which memory ran out at its beginning is reset, because it was not read."""
        try:
            return [json.loads(line) for line in connection.rest()]
        except ConnectionResetError:
            return []

    def test_each_allocation_in_turn(self) -> None:
        self.expect_answers(ALL_THREADS)

    def test_each_allocation_of_the_thread_that_answers(self) -> None:
        """The allocations are made in the same order each time, so none is left out."""
        self.expect_answers(FIRST_THREAD)

    def expect_answers(self, threads: range) -> None:
        """Checks that each order has a reply in its place, or the answer that memory ran out; or that nothing was begun."""
        self.needs("a C compiler", preloaded.has_compiler())
        refusing, store = Refusing(PROGRAM, self.folder), self.made(topology([(1, 1)]))
        content, lacked = self.read("store"), 0
        replies, before, after = self.orders(store, refusing, threads)
        self.assertEqual(replies, [answered(FINISHED, 2), answered(FINISHED, 3), answered(FINISHED, 4)])
        for first in range(before + 1, after + 1):
            self.write("store", content)
            replies, _, _ = self.orders(store, refusing, threads, first)
            with self.subTest(first=first - before, of=after - before):
                self.assertIn(len(replies), (0, 3), replies)
                steps = [reply["step"] for reply in replies if "step" in reply]
                self.assertEqual(steps, sorted(steps), replies)
                for reply in replies:
                    self.assertTrue("step" in reply or reply in NOT_CARRIED_OUT, replies)
            lacked += {"fault": "OutOfMemory"} in replies
        self.assertGreater(lacked, 10)

    def test_each_allocation_of_a_view(self) -> None:
        """A client that sends `resend`, `show` and an unknown request has an answer to each, one of which may report that
        memory ran out; or nothing was begun."""
        self.needs("a C compiler", preloaded.has_compiler())
        refusing, store, lacked = Refusing(PROGRAM, self.folder), self.made(ring(3)), 0
        asked: list[Answer] = [{"op": "resend"}, {"op": "show"}, {"op": "reset", "client": 1, "number": 1, "node": 64}, {"op": "resend"}]
        resent = {"count": 0, "kind": "resent"}
        wanted, before, after = self.answers(store, refusing, asked, 0)
        self.assertEqual((wanted[1]["settled"], wanted[:1] + wanted[2:]), (6, [resent, refused(6, "UnknownNode"), resent]))
        for first in range(before + 1, after + 1):
            answers, _, _ = self.answers(store, refusing, asked, first)
            with self.subTest(first=first - before, of=after - before):
                self.assertIn(len(answers), (0, 4), answers)
                for answer, usual in zip(answers, wanted):
                    self.assertIn(answer, (usual, {"fault": "OutOfMemory"}))
            lacked += {"fault": "OutOfMemory"} in answers
        self.assertGreater(lacked, 10)

    def answers(self, store: str, refusing: Refusing, asked: list[Answer], first: int) -> tuple[list[Answer], int, int]:
        """Returns the answers over one connection, while the server's first thread is refused one allocation."""
        with self.started(store, refusing.environment(first, threads=FIRST_THREAD)) as server:
            before = refusing.count()
            with server.connect() as connection:
                with contextlib.suppress(OSError):
                    connection.send(*asked)
                    connection.socket.shutdown(socket.SHUT_WR)
                answers, after = self.replies(connection), refusing.count()
            refusing.refuse(0, 0)
            self.assertEqual(self.close(server).status, 0)
            return answers, before, after

    def rests(self, store: str, refusing: Refusing, first: int) -> list[int] | None:
        """Sends three orders, with 300 allocations refused from this one on. Returns the requested microseconds of each pause
        until all orders were carried out, or None if they were not, or before that many allocations were made."""
        calls = self.write("calls", "")
        environment = preloaded.both(preloaded.environment(self.folder, CALLS=calls, WAITS=1), refusing.environment(first, 300))
        with Serving(store, env=environment) as server, server.connect() as connection:
            with contextlib.suppress(OSError):
                connection.send(*({"op": "reset", "client": 1, "number": number, "node": 1} for number in range(1, 4)))
                connection.socket.shutdown(socket.SHUT_WR)
            replies, after = self.replies(connection), refusing.count()
            is_done = [reply.get("step") for reply in replies] == [2, 3, 4] and after >= first + 300
            rested = [int(line.split()[2]) for line in self.read("calls").splitlines() if line.startswith(b"rest ")]
            return rested if is_done else None

    def test_a_flusher_that_finds_no_memory_rests(self) -> None:
        """From one allocation on, the flusher is the thread that is refused, before a flight or when one returns. It tries
        again 300 times, and pauses for a millisecond before each attempt, so that it does not take the processor from the
        threads that hold the memory."""
        self.needs("a C compiler", preloaded.has_compiler())
        refusing, store = Refusing(PROGRAM, self.folder), self.made(topology([(1, 1)]))
        content = self.read("store")
        _, before, after = self.orders(store, refusing, ALL_THREADS)
        found = []
        for first in range(before + 1, after + 1):
            self.write("store", content)
            found.append(self.rests(store, refusing, first))
        refused = [rested for rested in found if rested is not None]
        counts = [len(rested) for rested in refused]
        self.assertGreater(min(counts, default=0), 250, counts)
        self.assertEqual({rest for rested in refused for rest in rested}, {1_000})
