"""Servers that answer `Stopped`: the proxy leaves each like one whose connection broke, and its clients never see that answer."""

from __future__ import annotations

import json
import os
import socket
import sys
import tempfile
import time
import unittest
from collections import Counter
from typing import IO, Any

from case import CLIENT, Client, Proxy, needs_proxy

sys.path.append(os.path.join(CLIENT, "tests"))
from fake import Fake  # noqa: E402

STOPPED = '{"name":"Stopped","refused":1}'


class Stopping(Fake):
    """A coordinator in memory. In each of the next `stops` connections it stops at the first line with the op `stops_at`, and carries
    out that line if `carries_out` says so: as after a write that failed, whose step may be on the disk. It answers Stopped to that
    line and to all after it; the next connection reaches the coordinator as it was started again."""

    def __init__(self) -> None:
        self.stops, self.stops_at, self.carries_out = 0, "", False
        super().__init__()

    def stop_at(self, op: str, carries_out: bool = False, stops: int = 1) -> None:
        self.stops_at, self.carries_out, self.stops = op, carries_out, stops

    def _serve_lines(self, connection: socket.socket, lines: IO[bytes]) -> None:
        has_stopped = False
        for line in lines:
            request = json.loads(line)
            self.seen.append(request)
            if not has_stopped and self.stops and request["op"] == self.stops_at:
                has_stopped = True
                self.stops -= 1
                if self.carries_out:
                    self.respond(line)
            connection.sendall((STOPPED if has_stopped else self.respond(line)).encode() + b"\n")


@needs_proxy
class Stopped(unittest.TestCase):
    def setUp(self) -> None:
        folder = tempfile.TemporaryDirectory()
        self.addCleanup(folder.cleanup)
        self.folder = folder.name
        self.server = self.stopping()
        self.server.ring(3)

    def stopping(self) -> Stopping:
        server = Stopping()
        self.addCleanup(server.close)
        return server

    def connect(self, *arguments: str) -> Client:
        """Returns a connection whose first order has been answered, so that the proxy knows the number of its own last order."""
        proxy = Proxy(self.folder, self.server.address, *arguments)
        self.addCleanup(proxy.kill)
        client = proxy.connect()
        self.addCleanup(client.close)
        client.ask(op="confirm", node=1, epoch=9)
        return client

    def sent(self, op: str) -> list[dict[str, Any]]:
        """The lines of an op that have come to the server."""
        return [line for line in self.server.seen if line["op"] == op]

    def test_a_query(self) -> None:
        client = self.connect()
        self.server.stop_at("show")
        self.assertIn("nodes", client.ask(op="show"))

    def test_an_order_of_a_client(self) -> None:
        """It goes again as it was, so it is carried out once, whether or not it was when the server stopped."""
        client = self.connect()
        for number, carries_out in enumerate((False, True), 1):
            self.server.stop_at("reset", carries_out)
            self.assertEqual(client.ask(op="reset", client=1, number=number, node=1)["kind"], "started")
            self.assertEqual((self.server.nodes[1][1], self.server.last(1)), (number, number))

    def test_orders_that_the_proxy_numbers(self) -> None:
        """They go again with the numbers that they had."""
        client = self.connect()
        for orders, carries_out in enumerate((False, True), 1):
            self.server.stop_at("reset", carries_out)
            client.send(*[{"op": "reset", "node": 1}] * 3)
            self.assertEqual([client.reply()["kind"] for _ in range(3)], ["started"] * 3)
            self.assertEqual((self.server.nodes[1][1], self.server.last(15)), (3 * orders, 3 * orders))

    def test_a_reset_that_names_an_epoch_is_never_sent_twice(self) -> None:
        """If the last number shows that it was carried out, its client gets `carried out`; if not, it is judged by another view."""
        client = self.connect()
        self.server.stop_at("reset")
        self.assertEqual(client.ask(op="reset", node=1, epoch=0)["kind"], "started")
        self.server.stop_at("reset", carries_out=True)
        self.assertEqual(client.ask(op="reset", node=1, epoch=1), {"kind": "carried out", "step": 0})
        self.assertEqual(self.server.nodes[1][1], 2)
        # Each of the three went right after a view.
        resets = [place for place, line in enumerate(self.server.seen) if line["op"] == "reset"]
        self.assertEqual(len(resets), 3)
        for place in resets:
            self.assertEqual(self.server.seen[place - 1], {"op": "show"})

    def test_a_close_is_sent_once(self) -> None:
        client = self.connect()
        self.server.stop_at("close")
        client.send({"op": "close"})
        self.assertEqual(client.line(), b"")
        self.assertEqual(len(self.sent("close")), 1)

    def test_the_next_address(self) -> None:
        """All lines of the flight go there, once each: those before the one that was answered Stopped have their answers."""
        other = self.stopping()
        other.restore(self.server.copy())
        self.server.stop_at("reset", stops=1 << 30)
        proxy = Proxy(self.folder, [self.server.address, other.address])
        self.addCleanup(proxy.kill)
        with proxy.connect() as client:
            client.send({"op": "add", "client": 1, "number": 1, "node": 9, "group": 1})
            self.assertEqual(client.reply()["kind"], "done")
            other.restore(self.server.copy())
            client.send(*({"op": "reset", "client": 2, "number": number, "node": 1} for number in (1, 2, 3)))
            self.assertEqual([client.reply()["kind"] for _ in range(3)], ["started"] * 3)
        self.assertEqual((self.server.nodes[1][1], other.nodes[1][1]), (0, 3))
        self.assertEqual(Counter(line["op"] for line in other.seen if line["op"] != "show"), {"reset": 3})

    def test_one_that_stays_stopped(self) -> None:
        """Then the line waits for as long as for a server that is away, and the server is asked again after pauses."""
        client = self.connect("--patience", "2")
        self.server.stop_at("reset", stops=1 << 30)
        began = time.monotonic()
        client.send({"op": "reset", "client": 1, "number": 1, "node": 1})
        self.assertEqual(client.line(), b"")
        self.assertGreater(time.monotonic() - began, 1.9)
        self.assertIn(len(self.sent("reset")), range(3, 30))


if __name__ == "__main__":
    unittest.main()
