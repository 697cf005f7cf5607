"""Servers that leave, stop or lie away for a while, and lines that wait for them."""

from __future__ import annotations

import contextlib
import socket
import tempfile
import threading
import time
import unittest
from typing import Any

from case import DEADLINE, Case, Client, Proxy, needs_proxy, until
from test_lost_answers import Losing

STOPPED = b'{"name":"Stopped","refused":1}\n'


class Addresses(Case):
    nodes = 2
    has_proxy = False

    def proxy_before(self, *addresses: str, timeout: float = 600) -> Proxy:
        proxy = Proxy(self.folder, addresses, "--patience", str(timeout))
        self.addCleanup(proxy.kill)
        return proxy

    def stopped_one(self) -> str:
        """The address of a coordinator that has stopped."""
        listener = socket.create_server(("127.0.0.1", 0))
        self.addCleanup(listener.close)

        def serve() -> None:
            with contextlib.suppress(OSError):
                while True:
                    connection, _ = listener.accept()
                    with connection, connection.makefile("rb") as lines:
                        for _ in lines:
                            connection.sendall(STOPPED)
        threading.Thread(target=serve, daemon=True).start()
        return "127.0.0.1:{}".format(listener.getsockname()[1])

    def test_the_second_address_is_tried(self) -> None:
        with socket.create_server(("127.0.0.1", 0)) as nobody:
            closed = "127.0.0.1:{}".format(nobody.getsockname()[1])
        self.assertIn("nodes", self.proxy_before(closed, self.server.address).ask(op="show"))

    def test_one_that_has_stopped_is_left(self) -> None:
        proxy = self.proxy_before(self.stopped_one(), self.server.address)
        order = {"op": "reset", "client": 1, "number": 1, "node": 1}

        def carried_out() -> dict[str, Any] | None:
            answer = proxy.ask(**order)
            return answer if "kind" in answer else None
        self.assertEqual(until("the other one", carried_out)["kind"], "started")

    def note_end(self, client: Client, ended: threading.Event) -> None:
        with contextlib.suppress(ConnectionError):
            while client.line():
                pass
        ended.set()

    def test_one_who_sends_on_is_ended_too(self) -> None:
        """The first line without an answer counts."""
        proxy = self.proxy_before(self.server.address, timeout=1.5)
        self.server.kill()
        ended, began = threading.Event(), time.monotonic()
        with proxy.connect() as client:
            threading.Thread(target=self.note_end, args=(client, ended), daemon=True).start()
            number = 0
            with contextlib.suppress(ConnectionError):
                while not ended.wait(0.2):
                    number += 1
                    client.send({"op": "reset", "client": 1, "number": number, "node": 1})
                    self.assertLess(time.monotonic() - began, DEADLINE)


class LosingLooks(Losing):
    """Ends its connection after a look, as often as `looks_lost` says."""

    looks_lost = 0

    def respond(self, line: bytes) -> str:
        if self.looks_lost and not self.loses and b'"show"' in line:
            self.looks_lost -= 1
            raise ConnectionError
        return super().respond(line)


@needs_proxy
class Watched(unittest.TestCase):
    def test_watchers_learn_of_an_order_whose_answer_was_lost(self) -> None:
        """As soon as it has been answered, and not at the next time that they are sent a view anyway; also if looks are lost after it."""
        for looks in (0, 1, 2):
            with self.subTest(looks), tempfile.TemporaryDirectory() as folder:
                self.learn(folder, looks)

    def learn(self, folder: str, looks: int) -> None:
        server = LosingLooks()
        self.addCleanup(server.close)
        server.ring(3)
        server.nodes[1][1] = 5
        proxy = Proxy(folder, server.address)
        self.addCleanup(proxy.kill)
        with proxy.connect() as watcher, proxy.connect() as client:
            watcher.ask(op="watch")
            client.ask(op="confirm", node=1, epoch=99)
            server.loses, server.looks_lost = 1, looks
            began = time.monotonic()
            client.ask(op="confirm", client=1, number=1, node=1, epoch=5)
            while watcher.reply()["nodes"][0][5] != 5:
                pass
            self.assertLess(time.monotonic() - began, 14)  # each 15 seconds all get the view


if __name__ == "__main__":
    unittest.main()
