"""Clients that connect in great numbers, leave too early, or leave in the middle of a line."""

import os
import signal
import socket
import threading

from support import preloaded
from support.case import Case, until
from support.serving import Serving
from support.stores import ring, topology

STORM = 15_000  # consecutive calls of one kind, fewer than are allowed
RESENT = {"count": 0, "kind": "resent"}
GONE_AT_ONCE = b"\1\0\0\0\0\0\0\0"  # for SO_LINGER: a close resets the connection


def state_of(process: int) -> str:
    """Returns the letter of a process's state; T is a stopped process."""
    with open(f"/proc/{process}/stat", encoding="ascii") as file:
        return file.read().rsplit(")", 1)[1].split()[0]


class Connections(Case):
    takes = 8

    def serving(self) -> Serving:
        return Serving(self.made(topology([(1, 1)])))

    def test_two_hundred_one_after_the_other(self) -> None:
        with self.serving() as server:
            descriptors = os.listdir(f"/proc/{server.process.pid}/fd")
            for number in range(1, 201):
                self.assertEqual(server.order(number, "reset", node=1), {"kind": "finished", "step": number + 1})
            # the descriptor of the last one may not be closed yet
            self.assertLessEqual(len(os.listdir(f"/proc/{server.process.pid}/fd")), len(descriptors) + 1)
            self.assertEqual(server.await_signals(200), [(1, epoch) for epoch in range(1, 201)])
            self.assertEqual(server.close().status, 0)

    def test_fifteen_hundred_that_say_nothing(self) -> None:
        """Clients connect and leave. Their number is not limited."""
        with self.serving() as server:
            host, port = server.address.split(":")
            for _ in range(1_500):
                socket.create_connection((host, int(port))).close()
            self.assertEqual(server.ask({"op": "resend"}), RESENT)
            self.assertEqual(server.close().status, 0)

    def test_an_answer_goes_out_at_once(self) -> None:
        """The system is configured for that on each connection: otherwise it may wait until the client has read earlier bytes."""
        self.needs("a C compiler", preloaded.has_compiler())
        environment = preloaded.environment(self.folder, CALLS=self.path("calls"), WAITS=1)
        with Serving(self.made(topology([(1, 1)])), env=environment) as server:
            for _ in range(2):
                self.assertEqual(server.ask({"op": "resend"}), RESENT)
            self.assertEqual(server.close().status, 0)
        values = [line.split()[2] for line in self.read("calls").decode().splitlines() if line.startswith("at-once ")]
        self.assertEqual(values, ["1"] * 3)

    def test_no_look_for_more_after_an_order(self) -> None:
        """A read that did not fill its buffer has taken everything that had arrived. Only after any other read does the server
        check for more."""
        self.needs("a C compiler", preloaded.has_compiler())
        environment = preloaded.environment(self.folder, CALLS=self.path("calls"), WAITS=1)
        with Serving(self.made(topology([(1, 1)])), env=environment) as server:
            with server.connect() as connection:
                for number in range(1, 6):
                    connection.send({"op": "reset", "client": 1, "number": number, "node": 1})
                    connection.line()
                self.assertEqual(self.looks(), 0)
                connection.send(b'{"op":"resend"}\n' * 100)
                for _ in range(100):
                    connection.line()
                self.assertGreater(self.looks(), 0)
            self.assertEqual(server.close().status, 0)

    def looks(self) -> int:
        """Returns how often the program has checked for more input."""
        return self.read("calls").decode().count("look ")

    def test_reads_and_writes_that_are_interrupted(self) -> None:
        """A stop of the process interrupts them. Even answers that are sent byte by byte arrive whole, and once."""
        self.needs("a C compiler", preloaded.has_compiler())
        environment = preloaded.environment(self.folder, INTERRUPTS=1, PIECE=1)
        with Serving(self.made(ring(64)), env=environment) as server, server.connect() as connection:
            for _ in range(3):
                connection.send({"op": "resend"}, {"op": "show"})
                self.assertEqual((connection.reply(), len(connection.reply()["links"])), (RESENT, 64))
            connection.socket.close()
            self.assertEqual(server.close().status, 0)

    def test_a_wait_that_is_interrupted_very_often(self) -> None:
        self.expect_served(RECEIVE_STORM=STORM)

    def test_an_answer_that_is_interrupted_very_often(self) -> None:
        self.expect_served(SEND_STORM=STORM)

    def expect_served(self, **settings: int) -> None:
        """Checks with a clock that stands still: however long it takes, the client is served in time."""
        self.needs("a C compiler", preloaded.has_compiler())
        environment = preloaded.environment(self.folder, STILL=1, **settings)
        with Serving(self.made(topology([(1, 1)])), env=environment) as server:
            self.assertEqual(server.order(1, "reset", node=1), {"kind": "finished", "step": 2})
            self.assertEqual(server.close().status, 0)

    def test_a_server_that_is_stopped_and_goes_on(self) -> None:
        """A wait for a line continues, and so does a wait for the rest of a line."""
        with self.serving() as server, server.connect() as connection:
            for _ in range(10):
                for part in (b'{"op":', b'"resend"}\n'):
                    server.process.send_signal(signal.SIGSTOP)
                    until("a stop", lambda: state_of(server.process.pid) == "T")
                    server.process.send_signal(signal.SIGCONT)
                    connection.send(part)
                self.assertEqual(connection.reply(), RESENT)
            connection.socket.close()
            self.assertEqual(server.close().status, 0)

    def test_two_hundred_at_once(self) -> None:
        """Each gets its answer, in whatever order they are served."""
        with self.serving() as server:
            answers, lock = [], threading.Lock()

            def call(number: int) -> None:
                answer = server.ask({"op": "resend"}) if number > 1 else server.order(1, "reset", node=1)
                with lock:
                    answers.append(answer)

            callers = [threading.Thread(target=call, args=[number]) for number in range(1, 201)]
            for caller in callers:
                caller.start()
            for caller in callers:
                caller.join()
            self.assertEqual(len(answers), 200)
            self.assertEqual([answer for answer in answers if answer != RESENT], [{"kind": "finished", "step": 2}])
            self.assertEqual(server.close().status, 0)

    def test_clients_that_left_before_they_were_served(self) -> None:
        """Some have sent a line that may or may not have been carried out. The next client is served."""
        with self.serving() as server:
            descriptors = os.listdir(f"/proc/{server.process.pid}/fd")
            with server.connect() as first:
                first.send({"op": "show"})
                first.line()
                for number in range(60):
                    with server.connect() as other:
                        other.send(*[{"op": "resend"}] * (number % 3))
                        if number % 2:
                            other.socket.setsockopt(socket.SOL_SOCKET, socket.SO_LINGER, GONE_AT_ONCE)
            self.assertEqual(server.ask({"op": "resend"}), RESENT)
            self.assertLessEqual(len(os.listdir(f"/proc/{server.process.pid}/fd")), len(descriptors) + 1)
            self.assertEqual(server.close().status, 0)

    def test_a_client_that_says_it_sends_no_more(self) -> None:
        """The client still gets all its answers, and then the connection ends."""
        with self.serving() as server, server.connect() as connection:
            connection.send({"op": "resend"}, {"op": "resend"}, b'{"op":"sh')
            connection.socket.shutdown(socket.SHUT_WR)
            resent = b'{"count":0,"kind":"resent"}\n'
            self.assertEqual(connection.rest(), [resent, resent, b'{"fault":"Unfinished"}\n'])

    def test_a_client_that_sends_nothing_and_says_so(self) -> None:
        with self.serving() as server:
            for _ in range(20):
                with server.connect() as connection:
                    connection.socket.shutdown(socket.SHUT_WR)
                    self.assertEqual(connection.rest(), [])

    def test_an_order_of_a_client_that_left_is_kept(self) -> None:
        """The order had no answer. Sent again, it gets the answer of its one step."""
        with Serving(self.made(ring(8))) as server:
            for number in range(1, 11):
                with server.connect() as connection:
                    connection.send({"op": "reset", "client": 3, "number": number, "node": 1})
                    connection.socket.shutdown(socket.SHUT_RD)
                first = server.order(number, "reset", 3, node=1)
                self.assertIn(first["kind"], ("started", "joined"))
                self.assertEqual(server.order(number, "reset", 3, node=1), first)
            server.await_quiet()

    def test_many_lines_of_one_connection(self) -> None:
        """A thousand lines are sent before the first answer is read: the answers arrive in order."""
        with self.serving() as server, server.connect() as connection:
            sent = [{"op": "reset", "client": 1, "number": number, "node": 1} for number in range(1, 1_001)]
            sender = threading.Thread(target=connection.send, args=sent)
            sender.start()
            self.assertEqual([connection.reply()["step"] for _ in sent], list(range(2, 1_002)))
            sender.join()

    def test_more_bytes_than_reads(self) -> None:
        """The limit of 1,048,576 for a connection counts reads, and a read takes more than one byte."""
        line = b'{"op":"resend"}'.ljust(511) + b"\n"
        with self.serving() as server, server.connect() as connection:
            for _ in range(33):
                connection.send(line * 64)
                self.assertEqual([connection.reply() for _ in range(64)], [RESENT] * 64)

    def test_a_second_connection_after_each_kind_of_end(self) -> None:
        """The previous connection ended with a line that was too long, with a partial line, or by a reset."""
        with self.serving() as server:
            for last in (b"x" * 600 + b"\n", b"x" * 600, b'{"op":"resend"}', b"\xff\xff\n", b"\0" * 5_000):
                with server.connect() as connection:
                    connection.send(last)
                    connection.socket.shutdown(socket.SHUT_WR)
                    connection.rest()
                self.assertEqual(server.ask({"op": "resend"}), RESENT)
