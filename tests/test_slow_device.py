"""A device with slow syncs: steps that are accepted but not settled are visible only as a count."""

import os
import select
import sys
import time

from support import preloaded
from support.case import Case, until
from support.serving import Answer, Connection, Serving, rests
from support.stores import ring, topology

SECONDS = 0.4  # seconds of each sync; a flight has two
LONGER = (3.0, 10.0)  # on a busy machine
WAITED = 2  # seconds that a flight waits for callers, at most


class Rests(Case):
    def test_orders_one_after_the_other(self) -> None:
        """If nothing fails, no thread sleeps."""
        self.needs("a C compiler", preloaded.has_compiler())
        environment = preloaded.environment(self.folder, CALLS=self.path("calls"), WAITS=1)
        with Serving(self.made(ring(3)), env=environment) as server:
            for number in range(1, 11):
                self.assertEqual(server.order(number, "reset", node=1)["kind"], "started")
                server.await_signals(3 * number)
            self.assertEqual(server.close().status, 0)
        self.assertEqual([line for line in self.read("calls").splitlines() if line.startswith(b"rest ")], [])


class SlowDevice(Case):
    takes = 15

    def serving(self, text: str, seconds: float = SECONDS) -> Serving:
        self.needs("a C compiler", preloaded.has_compiler())
        settings = {"SYNC_MILLIS": int(seconds * 1_000)}
        return Serving(self.made(text, f"store{seconds}"), env=preloaded.environment(self.folder, **settings))

    def test_a_reply_waits_for_its_step(self) -> None:
        with self.serving(topology([(1, 1)])) as server:
            for number in (1, 2, 3):
                begun = time.monotonic()
                self.assertEqual(server.order(number, "reset", node=1), {"kind": "finished", "step": 1 + number})
                self.assertGreater(time.monotonic() - begun, 2 * SECONDS)
            self.assertEqual(server.close().status, 0)

    def test_a_client_waits_for_a_slow_sync_at_rest(self) -> None:
        """No thread runs meanwhile."""
        self.assertTrue(any(map(self.rests_in_a_flight, LONGER)))

    def rests_in_a_flight(self, seconds: float) -> bool:
        """Returns whether the server rests while an order waits for its syncs. On a busy machine it may come to rest only if these
        take longer."""
        has_rested = False
        with self.serving(topology([(1, 1)]), seconds) as server, server.connect() as connection:
            connection.send({"op": "reset", "client": 1, "number": 1, "node": 1})
            while not has_rested and not select.select([connection.socket], [], [], 0)[0]:
                has_rested = rests(server.process.pid)
            self.assertEqual(connection.reply(), {"kind": "finished", "step": 2})
            self.assertEqual(server.close().status, 0)
        return has_rested

    def test_what_is_shown_and_sent_again_while_a_step_waits(self) -> None:
        """The packet of a reset is taken at once, and that step waits: in the settled world the packet is still in transit."""
        tries = (self.in_a_flight(seconds) for seconds in (SECONDS, *LONGER))
        seen = next(filter(None, tries), None)
        if seen is None:
            self.fail("no step was seen that waits")
        shown, resent = seen
        self.assertEqual(shown["nodes"], [[1, 1, "abort", 0, 0, 0], [2, 1, "ready", 0, 0, 0]])
        self.assertEqual(resent, {"count": 1, "kind": "resent"})

    def in_a_flight(self, seconds: float) -> tuple[Answer, Answer] | None:
        """Returns the views and the resent packets while the second step of a reset waits, or None if the machine was too busy."""
        with self.serving(topology([(1, 1), (2, 1)], [(1, 2)]), seconds) as server:
            self.assertEqual(server.order(1, "reset", node=1), {"kind": "started", "step": 4})
            with server.connect() as connection:
                until("the second step", lambda: self.count_accepted(connection) > 4)
                connection.send({"op": "show"}, {"op": "resend"}, {"op": "show"})
                shown, resent, again = connection.reply(), connection.reply(), connection.reply()
            server.await_quiet(1)
            self.assertEqual(sorted(server.await_signals(2)), [(1, 1), (2, 1)])
        return (shown, resent) if shown == again and (shown["accepted"], shown["settled"]) == (5, 4) else None

    @staticmethod
    def count_accepted(connection: Connection) -> int:
        connection.send({"op": "show"})
        accepted: int = connection.reply()["accepted"]
        return accepted

    def test_no_signal_before_it_is_settled(self) -> None:
        """Each node with a printed signal is shown in its new epoch."""
        with self.serving(ring(4)) as server:
            self.assertEqual(server.order(1, "reset", node=1)["kind"], "started")
            while len(server.signals()) < 4:
                printed = server.signals()
                epochs = {row[0]: row[4] for row in server.show()["nodes"]}
                self.assertEqual([(epoch, epochs[node]) for node, epoch in printed], [(1, 1)] * len(printed))
            self.assertEqual(server.close().status, 0)

    def test_callers_that_do_not_come_again(self) -> None:
        """They are waited for during a sixteenth of their flight's time."""
        self.needs("a C compiler", preloaded.has_compiler())
        calls, clock, held = self.path("calls"), self.write("clock", bytes(8)), self.path("held")
        settings = preloaded.environment(self.folder, CALLS=calls, CLOCK=clock, HELD=held)
        with Serving(self.made(topology([(1, 1)])), env=settings) as server, server.connect() as connection:
            # on a busy machine the second order may miss the flight of the first
            flights = (self.in_a_long_flight(connection, number) for number in range(1, 20, 2))
            last = next(filter(None, flights), None)
            if last is None:
                self.fail("no flight had two orders")
            connection.send({"op": "reset", "client": 1, "number": last + 1, "node": 1})
            connection.socket.settimeout(12 * WAITED)
            self.assertEqual(connection.reply()["step"], last + 2)

    def in_a_long_flight(self, connection: Connection, first: int) -> int | None:
        """Sends two orders, and advances the clock during their flight. Returns the second one's number, if one flight had both."""
        before = len(self.read("calls"))

        def lines() -> list[bytes]:
            return self.read("calls")[before:].splitlines()
        self.write("held", b"")
        connection.send(*({"op": "reset", "client": 1, "number": number, "node": 1} for number in (first, first + 1)))
        until("a flight", lambda: any(line.startswith(b"write ") for line in lines()))
        with open(self.path("clock"), "r+b") as file:
            ahead = int.from_bytes(file.read(), sys.byteorder) + 16 * WAITED
            file.seek(0)
            file.write(ahead.to_bytes(8, sys.byteorder))
        os.remove(self.path("held"))
        self.assertEqual([connection.reply()["step"] for _ in range(2)], [first + 1, first + 2])
        kinds = [line.split()[0] for line in lines()]
        return None if b"write" in kinds[kinds.index(b"out"):] else first + 1

    def test_a_close_settles_what_was_accepted(self) -> None:
        """A client's close does not wait for a wave, and no accepted step of the wave is lost."""
        tries = (self.closed_in_a_wave(seconds) for seconds in (1.0, *LONGER))
        closed = next((tried for tried in tries if len(tried[2]) < 4), None)
        if closed is None:
            self.fail("a close has waited for a wave")
        store, accepted, signals = closed
        with Serving(store) as server:
            self.assertGreaterEqual(server.show()["accepted"], accepted)
            server.await_quiet(1)
            rest = server.await_signals(4 - len(signals))
            self.assertEqual(sorted(signals + rest), [(node, 1) for node in range(1, 5)])

    def closed_in_a_wave(self, seconds: float) -> tuple[str, int, list[tuple[int, int]]]:
        """Closes the server after the order that begins a wave. Returns the store, the number of accepted steps shown before,
        and the signals. A wave takes more flights than the one or two that a close settles; if the machine is too busy, it
        may be over before."""
        with self.serving(ring(4), seconds) as server:
            self.assertEqual(server.order(1, "reset", node=1)["kind"], "started")
            accepted = server.show()["accepted"]
            self.assertEqual(server.close().status, 0)
            return server.store, accepted, server.signals()
