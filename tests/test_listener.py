"""A listener that fails: a temporary failure is waited for, and a permanent one ends the server. Also a listener without
clients."""

import errno
import os
from collections import Counter

from support import preloaded
from support.case import Case, until
from support.serving import Serving, rests
from support.stores import topology

# accept(2): a network error that is already pending on the new socket is reported by accept, which is then to be retried.
PASSES = ["ECONNABORTED", "EINTR", "EPROTO", "ENETDOWN", "ENOPROTOOPT", "EHOSTDOWN", "ENONET", "EHOSTUNREACH",
          "ENETUNREACH", "EPERM", "EMFILE", "ENFILE", "ENOMEM", "ENOBUFS"]
ENDS_IT = ["EBADF", "EINVAL", "ENOTSOCK", "EFAULT"]
ALWAYS = 1_000_000_000
TRIES, REST = 100, 0.1  # number of attempts after a temporary failure, and the seconds between them


class Failing(Case):
    takes = 15

    def setUp(self) -> None:
        super().setUp()
        self.needs("a C compiler", preloaded.has_compiler())

    def serving(self, name: str, times: int, after: int = 0) -> Serving:
        settings = {"ACCEPT_ERROR": getattr(errno, name), "ACCEPT_TIMES": times, "ACCEPT_AFTER": after,
                    "CALLS": self.path("calls"), "WAITS": 1}
        store = self.made(topology([(1, 1)]), f"store-{name}-{after}")
        self.write("calls", b"")
        return Serving(store, env=preloaded.environment(self.folder, **settings))

    def rests(self) -> list[int]:
        """Returns the microseconds of each pause that the server made before the last client that it served."""
        before = self.read("calls").rpartition(b"at-once ")[0].splitlines()
        return [int(line.split()[2]) for line in before if line.startswith(b"rest ")]


class Listener(Failing):
    def test_what_passes(self) -> None:
        """Before each client it fails three times."""
        for name in PASSES:
            with self.subTest(error=name), self.serving(name, 3) as server:
                for number in (1, 2, 3):
                    self.assertEqual(server.order(number, "reset", node=1), {"kind": "finished", "step": 1 + number})
                self.assertEqual(server.close().status, 0)

    def test_what_does_not_pass(self) -> None:
        """The listener fails at once, or after the first clients."""
        for name in ENDS_IT:
            for after in (0, 2):
                with self.serving(name, ALWAYS, after) as server:
                    for number in range(1, after + 1):
                        self.assertEqual(server.order(number, "reset", node=1), {"kind": "finished", "step": 1 + number})
                    ended = server.ended()
                    self.assertEqual((name, ended.status, ended.fault), (name, 3, "resetd: Socket\n"))
                    signals = "".join(f"signal 1 {epoch}\n" for epoch in range(1, after + 1))
                    self.assertEqual(ended.printed, f"listening {server.address}\n{signals}")

    def test_what_lasts(self) -> None:
        """The listener fails 60 times in a row, and again before the next client: more in all than it may in a row. The server
        pauses before each further attempt, but not after a client that has left."""
        for name, rests in (("ENFILE", 60), ("EPROTO", 0)):
            with self.subTest(error=name), self.serving(name, 60) as server:
                for clients in (1, 2):
                    self.assertEqual(server.ask({"op": "resend"}), {"count": 0, "kind": "resent"})
                    self.assertEqual(Counter(self.rests()), Counter({REST * 1_000_000: rests * clients}))

    def test_a_rest_before_each_further_try(self) -> None:
        """The pause takes as long as docs/OPERATING.md says."""
        with self.serving("ENFILE", 3) as server:
            self.assertEqual(server.ask({"op": "resend"}), {"count": 0, "kind": "resent"})
            self.assertEqual(self.rests(), [REST * 1_000_000] * 3)

    def test_connections_that_can_not_be_made_ready(self) -> None:
        """Each of them is ended, and keeps no descriptor. However many there are, the next client is served."""
        store, count = self.made(topology([(1, 1)])), TRIES + 10
        with Serving(store, env=preloaded.environment(self.folder, UNREADY=count)) as server:
            descriptors = os.listdir(f"/proc/{server.process.pid}/fd")
            for _ in range(count):
                with server.connect() as connection:
                    self.assertEqual(connection.rest(), [])
            self.assertEqual(server.ask({"op": "resend"}), {"count": 0, "kind": "resent"})
            self.assertLessEqual(len(os.listdir(f"/proc/{server.process.pid}/fd")), len(descriptors) + 1)
            self.assertEqual(server.close().status, 0)


    def test_a_client_whose_waits_can_not_be_bounded(self) -> None:
        """The client's timeouts can't be set: its connection ends before a line, within a line, or before an answer."""
        resend = b'{"op":"resend"}\n'
        for call, number, said in (("READ_TIME_FAILS", 1, b""), ("READ_TIME_FAILS", 2, b'{"op":'), ("WRITE_TIME_FAILS", 1, resend)):
            store = self.made(topology([(1, 1)]), f"store-{call}-{number}")
            environment = preloaded.environment(self.folder, **{call: number})
            with self.subTest(call=call, number=number), Serving(store, env=environment) as server:
                with server.connect() as connection:
                    connection.socket.settimeout(12)  # less than the timeout of a silent client
                    connection.send(said)
                    self.assertEqual(connection.line(), b"")
                self.assertEqual(server.ask({"op": "resend"}), {"count": 0, "kind": "resent"})
                self.assertEqual(server.close().status, 0)


class LastTry(Failing):
    """A temporary failure is retried 100 times in a row, and not more."""

    def test_the_last_try(self) -> None:
        with self.serving("ENFILE", TRIES) as server:
            self.assertEqual(server.ask({"op": "resend"}), {"count": 0, "kind": "resent"})
            self.assertEqual(len(self.rests()), TRIES)

    def test_clients_that_leave_without_end(self) -> None:
        """Their errors are not counted, and the next client does not wait for them."""
        with self.serving("ECONNABORTED", 10 * TRIES) as server:
            self.assertEqual(server.ask({"op": "resend"}), {"count": 0, "kind": "resent"})
            self.assertEqual(self.rests(), [])

    def test_one_failure_more(self) -> None:
        with self.serving("EMFILE", TRIES + 1) as server:
            self.assertEqual((server.ended().status, server.ended().fault), (3, "resetd: Socket\n"))


class Idle(Case):
    takes = 3

    def test_a_server_that_nobody_asks(self) -> None:
        """A server waits without using the processor: before the first client, after an order of a client that stays, and after
        the first part of a line."""
        with Serving(self.made(topology([(1, 1)]))) as server:
            self.expect_rest(server)
            with server.connect() as connection:
                connection.send({"op": "reset", "client": 1, "number": 1, "node": 1})
                self.assertEqual(connection.reply()["step"], 2)
                self.expect_rest(server)
                connection.send(b'{"op":')
                self.expect_rest(server)
            self.assertEqual(server.close().status, 0)

    @staticmethod
    def expect_rest(server: Serving) -> None:
        until("rest of all threads", lambda: rests(server.process.pid))
