"""What a port does with its addresses, with servers that do not answer properly, and while it waits."""

from __future__ import annotations

import contextlib
import socket
import threading
import time
import unittest
from collections.abc import Callable
from unittest import mock

from case import Case
from resetd_client import Away, Faulted, Garbled, NotNow, Port, patiently
from resetd_client.port import MOST_BYTES, TooLong, line_of

RESENT = {"count": 0, "kind": "resent"}


class Addresses(Case):
    def setUp(self) -> None:
        super().setUp()
        self.other = self.started()
        self.both = Port(f"{self.server.address},{self.other.address}", 120)

    def test_it_begins_with_the_one_that_answered_last(self) -> None:
        """The answer may be a refusal. Another address is tried only if that one gives no answer."""
        self.server.is_stopped = True
        self.assertRaises(NotNow, self.port.show)
        self.both.show()
        self.server.is_stopped = False
        seen = len(self.server.seen)
        self.both.show()
        self.assertRaises(Faulted, self.both.ask, {"op": "fly"})
        self.both.show()
        self.assertEqual(len(self.server.seen), seen)
        self.other.is_stopped = True
        self.both.show()
        self.assertEqual(len(self.server.seen), seen + 1)

    def test_one_that_refuses_is_the_next_one_to_be_asked(self) -> None:
        self.server.faults = ["lose"]
        self.assertRaises(Faulted, self.both.ask, {"op": "fly"})
        self.assertEqual((self.both.ask({"op": "resend"}), len(self.server.seen), len(self.other.seen)), (RESENT, 1, 2))

    def test_not_now_counts_more_than_no_answer(self) -> None:
        """A person should look first at the server that answers why it accepts nothing."""
        self.server.is_stopped = True
        for addresses in (f"{self.server.address},127.0.0.1:1", f"127.0.0.1:1,{self.server.address}"):
            self.assertRaises(NotNow, Port(addresses, 120).show)

    def test_a_close_that_is_answered_otherwise(self) -> None:
        self.server.faults = ['{"kind":"open"}']
        self.assertRaises(Garbled, self.port.close)


class Lines(unittest.TestCase):
    def test_the_limit_of_a_line(self) -> None:
        empty = len(line_of({"op": ""})) - 1
        self.assertEqual(len(line_of({"op": "x" * (MOST_BYTES - empty)})), MOST_BYTES + 1)
        self.assertRaises(TooLong, line_of, {"op": "x" * (MOST_BYTES - empty + 1)})


class Strange(unittest.TestCase):
    """Servers that are not coordinators."""

    def port(self, serve: Callable[[socket.socket], None], seconds: float) -> Port:
        listener = socket.create_server(("127.0.0.1", 0))
        self.addCleanup(listener.close)

        def accept() -> None:
            with contextlib.suppress(OSError):
                while True:
                    connection, _ = listener.accept()
                    with connection, contextlib.suppress(OSError):
                        connection.recv(1_000)
                        serve(connection)

        threading.Thread(target=accept, daemon=True).start()
        self.addCleanup(listener.shutdown, socket.SHUT_RDWR)
        return Port("127.0.0.1:{}".format(listener.getsockname()[1]), seconds)

    def test_one_that_says_something_without_end(self) -> None:
        """The server sends a byte at a time and never a whole line. The port gives up in time."""
        ended = threading.Event()

        def trickle(connection: socket.socket) -> None:
            while not ended.wait(0.05):
                connection.sendall(b"x")

        self.addCleanup(ended.set)
        with self.assertRaises(Away):
            self.within(20, self.port(trickle, 0.5).show)

    def within(self, seconds: float, call: Callable[[], object]) -> None:
        """Makes a call that has to return in time."""
        raised: list[BaseException] = []

        def caller() -> None:
            try:
                call()
            except BaseException as fault:
                raised.append(fault)

        thread = threading.Thread(target=caller, daemon=True)
        thread.start()
        thread.join(seconds)
        self.assertFalse(thread.is_alive(), "it waits on")
        for each in raised:
            raise each

    def test_one_that_is_silent_and_one_that_leaves(self) -> None:
        """The two are distinguished, because another client may have the server's only connection."""
        ended = threading.Event()
        self.addCleanup(ended.set)

        def silent(_: socket.socket) -> None:
            ended.wait(20)

        with self.assertRaisesRegex(Away, r"connected, but got no answer for 0\.3 s"):
            self.port(silent, 0.3).show()
        with self.assertRaisesRegex(Away, "the other end closed the connection without an answer"):
            self.port(lambda _: None, 20).show()

    def test_one_that_says_what_is_no_text(self) -> None:
        self.assertRaises(Garbled, self.port(lambda connection: connection.sendall(b"\xff\xfe\n"), 20).show)

    def test_one_that_says_more_than_it_is_asked(self) -> None:
        port = self.port(lambda connection: connection.sendall(b'{"count":1}\n{"count":2}\n{"count":3}\n'), 20)
        self.assertEqual(list(port.ask_many([{"op": "resend"}] * 2)), [{"count": 1}, {"count": 2}])


class Patiently(unittest.TestCase):
    def test_waits_grow_up_to_a_bound(self) -> None:
        """Each receiver gets the message once."""
        waits: list[float] = []
        received: list[Away] = []

        def call() -> str:
            if len(waits) < 40:
                raise Away("away")
            return "done"

        with mock.patch("resetd_client.port.time.sleep", waits.append):
            self.assertEqual(patiently(call, told=received.append), "done")
        self.assertEqual(len(received), 1)
        self.assertLess(waits[0], 0.2)
        self.assertTrue(all(1.0 < wait < 3.0 for wait in waits[20:]), waits)

    def test_it_ends_with_what_was_raised_last(self) -> None:
        began = time.monotonic()
        with self.assertRaisesRegex(Away, "still"):
            patiently(mock.Mock(side_effect=[Away("first"), *[Away("still")] * 100]), 0.3)
        self.assertGreaterEqual(time.monotonic() - began, 0.3)
