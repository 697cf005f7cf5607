"""The input after a close: it is discarded, so that the client can read the answer, and it does not delay the end."""

import contextlib
import socket
import threading
import time

from support import preloaded
from support.case import Case
from support.serving import Connection, Serving
from support.stores import topology

DISCARD = 1  # the number of seconds in which it is discarded
LATE = 60  # the number of seconds by which a busy machine may be late


class AfterAClose(Case):
    takes = 6

    def serving(self, name: str = "store") -> Serving:
        """Serves with a clock that stands still, so all received input is discarded, however long the server takes."""
        self.needs("a C compiler", preloaded.has_compiler())
        return Serving(self.made(topology([(1, 1)]), name), env=preloaded.environment(self.folder, STILL=1))

    def test_further_lines_are_discarded(self) -> None:
        for after in (b'{"op":"show"}\n', b'{"op":"show"}\n' * 2_000, b" " * 40_000):
            with self.subTest(after=len(after)), self.serving(f"store{len(after)}") as server, \
                    server.connect() as connection:
                connection.send(b'{"op":"close"}\n' + after)
                # a connection that was reset raises here
                self.assertEqual(connection.rest(), [b'{"kind":"closed"}\n'])
                connection.socket.close()
                self.assertEqual((server.ended().status, server.ended().fault), (0, ""))

    def test_lines_that_come_later_are_discarded(self) -> None:
        for number in range(20):
            with self.serving(f"store{number}") as server, server.connect() as connection:
                begun = time.monotonic()
                connection.send({"op": "close"})
                self.assertEqual(connection.line(), b'{"kind":"closed"}\n')
                with contextlib.suppress(ConnectionError):
                    connection.send(b'{"op":"show"}\n' * 100)
                    if time.monotonic() - begun < DISCARD / 2:
                        self.expect_discarded(server, connection)
                        return
        self.fail("the machine was too busy to send a line after a close in time")

    def expect_discarded(self, server: Serving, connection: Connection) -> None:
        """Checks that nothing more is sent, and the connection is not reset."""
        try:
            self.assertEqual(connection.rest(), [])
        except ConnectionError as torn:
            self.fail(f"the connection was torn off: {torn}")
        connection.socket.close()
        self.assertEqual(server.ended().status, 0)

    def test_a_client_learns_that_no_more_comes(self) -> None:
        """The server shuts down writing after the answer, before it discards the client's remaining input. So the client need
        not wait for the end of that."""
        self.needs("a C compiler", preloaded.has_compiler())
        environment = preloaded.environment(self.folder, CALLS=self.path("calls"), WAITS=1)
        with Serving(self.made(topology([(1, 1)])), env=environment) as server, server.connect() as connection:
            connection.send({"op": "close"})
            self.assertEqual(connection.rest(), [b'{"kind":"closed"}\n'])
            connection.socket.close()
            self.assertEqual(server.ended().status, 0)
        calls = [line.split(" ") for line in self.read("calls").decode().splitlines()]
        answer = b'{"kind":"closed"}\n'.hex()
        names = [name for name, _, place, text in calls if text == answer or (name == "no-more" and place == "1")
                 or name == "read-within"]
        self.assertEqual(names[:4], ["read-within", "out", "no-more", "read-within"])

    def test_a_client_that_stays_holds_up_no_end(self) -> None:
        with Serving(self.made(topology([(1, 1)]))) as server, server.connect() as connection:
            connection.send({"op": "close"})
            self.assertEqual(connection.line(), b'{"kind":"closed"}\n')
            self.assertEqual(server.ended(DISCARD + LATE).status, 0)

    def test_a_client_that_sends_on_holds_up_no_end(self) -> None:
        with Serving(self.made(topology([(1, 1)]))) as server, server.connect() as connection:
            connection.send({"op": "close"})
            self.assertEqual(connection.line(), b'{"kind":"closed"}\n')
            sender = threading.Thread(target=self.send_on, args=[connection], daemon=True)
            sender.start()
            self.assertEqual(server.ended(DISCARD + LATE).status, 0)
            sender.join()

    @staticmethod
    def send_on(connection: Connection) -> None:
        """Sends a few bytes at a time, until they are no longer accepted."""
        with contextlib.suppress(OSError):
            while True:
                connection.socket.send(b"x")
                time.sleep(0.005)

    def test_a_client_that_has_left(self) -> None:
        with Serving(self.made(topology([(1, 1)]))) as server:
            with server.connect() as connection:
                connection.send({"op": "close"})
                self.assertEqual(connection.line(), b'{"kind":"closed"}\n')
                connection.socket.setsockopt(socket.SOL_SOCKET, socket.SO_LINGER, b"\1\0\0\0\0\0\0\0")
            self.assertEqual((server.ended().status, server.ended().fault), (0, ""))
