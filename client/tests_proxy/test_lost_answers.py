"""What comes of lines that the server carried out, and whose answers were lost with its connection."""

from __future__ import annotations

import json
import os
import socket
import sys
import tempfile
import threading
import time
import unittest
from typing import IO, Any

from case import CLIENT, DEADLINE, Client, Proxy, needs_proxy, unread, until

sys.path.append(os.path.join(CLIENT, "tests"))
from fake import Fake  # noqa: E402


class Losing(Fake):
    """A coordinator in memory that carries out the next orders, as many as `loses` says, and ends their connection without an
    answer. While it holds, it answers no look."""

    def __init__(self) -> None:
        self.loses, self.look_seconds = 0, 0.0
        self.goes_on, self.held = threading.Event(), threading.Event()
        self.goes_on.set()
        super().__init__()

    def respond(self, line: bytes) -> str:
        if b'"show"' in line:
            time.sleep(self.look_seconds)
            self.held.set()
            self.goes_on.wait()
        return super().respond(line)

    def hold(self) -> None:
        self.held.clear()
        self.goes_on.clear()

    def _serve_lines(self, connection: socket.socket, lines: IO[bytes]) -> None:
        for line in lines:
            self.seen.append({"line": line.decode()})
            text = self.respond(line)
            if not self.loses or b'"show"' in line:
                connection.sendall(text.encode() + b"\n")
                continue
            self.loses -= 1
            if not self.loses:
                return


@needs_proxy
class Lost(unittest.TestCase):
    def setUp(self) -> None:
        folder = tempfile.TemporaryDirectory()
        self.addCleanup(folder.cleanup)
        self.server = Losing()
        self.addCleanup(self.server.close)
        self.server.ring(3)
        self.proxy = Proxy(folder.name, self.server.address)
        self.addCleanup(self.proxy.kill)

    def connect(self) -> Client:
        """Returns a connection whose first order has been answered, so that the proxy knows the number of its own last order."""
        client = self.proxy.connect()
        self.addCleanup(client.close)
        client.ask(op="confirm", node=1, epoch=9)
        return client

    def send_and_lose(self, *lines: tuple[Client, dict[str, Any]]) -> None:
        """These go out in one flight, as they wait together for the end of a look; they are carried out, and no answer comes."""
        looking = self.connect()
        self.server.hold()
        looking.send({"op": "show"})
        self.assertTrue(self.server.held.wait(DEADLINE))
        for client, line in lines:
            client.send(line)
            self.await_read(client)
        self.server.loses = len(lines)
        self.server.goes_on.set()
        self.assertIn("nodes", looking.reply())

    def await_read(self, client: Client) -> None:
        until("that the proxy has read it", lambda: unread(client) == 0)

    def test_an_order_gets_the_reply_that_is_kept(self) -> None:
        client = self.connect()
        self.send_and_lose((client, {"op": "reset", "client": 1, "number": 1, "node": 1}))
        self.assertEqual(client.reply()["kind"], "started")
        self.assertEqual(self.server.nodes[1][1], 1)

    def test_orders_that_another_follows_get_no_wrong_answer(self) -> None:
        """The server keeps the reply of the last one alone, and answers OutOfTurn to the others, which it has carried out."""
        client = self.connect()
        orders = [{"op": "reset", "client": 1, "number": number, "node": 1} for number in (1, 2, 3)]
        self.send_and_lose(*((client, order) for order in orders))
        self.assertEqual(client.line(), b"")
        self.assertEqual(self.server.nodes[1][1], 3)
        self.assertEqual(self.proxy.ask(**orders[2])["kind"], "started")
        self.assertEqual(self.server.nodes[1][1], 3)

    def test_orders_of_the_proxy_itself_count_as_carried_out(self) -> None:
        clients = [self.connect() for _ in range(3)]
        self.send_and_lose(*((client, {"op": "reset", "node": node}) for node, client in enumerate(clients, 1)))
        answers = [json.loads(client.line() or "{}") for client in clients]
        self.assertEqual(answers[2]["kind"], "started")
        for answer in answers[:2]:
            self.assertEqual(answer, {"kind": "carried out", "step": 0})
        self.assertEqual(self.server.nodes[1][1], 3)
        self.proxy.ask(op="reset", node=1)
        self.assertEqual((self.server.nodes[1][1], self.server.last(15)), (4, 4))

    def test_the_last_number_is_found_near_the_last_order(self) -> None:
        """However many orders were answered since the number was found last."""
        clients = [self.connect() for _ in range(3)]
        for _ in range(500):
            clients[0].ask(op="reset", node=1)
        before = len(self.server.seen)
        self.send_and_lose(*((client, {"op": "reset", "node": 1}) for client in clients))
        for client in clients:
            self.assertIn("kind", client.reply())
        lines = [str(seen["line"]) for seen in self.server.seen[before:]]
        probes = [line for line in lines if '"confirm"' in line and '"epoch":0' in line]
        self.assertIn(len(probes), range(1, 65))

    def test_looks_that_take_longer_than_a_connection_is_kept(self) -> None:
        """A reset that names an epoch goes right after its look all the same."""
        client = self.connect()
        self.server.look_seconds = 1.1
        self.assertEqual(client.ask(op="reset", node=1, epoch=0)["kind"], "started")

    def test_a_close_is_sent_once(self) -> None:
        client = self.connect()
        self.send_and_lose((client, {"op": "close"}))
        self.assertEqual(client.line(), b"")
        self.assertIn("nodes", self.proxy.ask(op="show"))
        self.assertEqual(sum("close" in str(line) for line in self.server.seen), 1)


if __name__ == "__main__":
    unittest.main()
