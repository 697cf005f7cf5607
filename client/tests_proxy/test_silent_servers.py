"""A server that answers nothing for a while is left, and the next address is tried. One that answers is not, even if the proxy is busy."""

from __future__ import annotations

import contextlib
import json
import os
import signal
import socket
import sys
import tempfile
import threading
import time
import unittest
from collections.abc import Callable

from audited import Piped
from case import CLIENT, DEADLINE, Case, Proxy, Server, needs_proxy, ring, until

sys.path.append(os.path.join(CLIENT, "tests"))
from fake import Fake  # noqa: E402

SILENT, LONGER = 4.0, 6.0  # seconds after which the proxy leaves a server, and for which it is busy
VIEW = {"accepted": 0, "links": [], "nodes": [], "settled": 0}


class Silent(Case):
    nodes = 2
    has_proxy = False

    def proxy_before(self, *addresses: str, silent: float = 2.0) -> Proxy:
        proxy = Proxy(self.folder, addresses, "--server-silent", str(silent))
        self.addCleanup(proxy.kill)
        return proxy

    def listener(self, backlog: int = 16) -> tuple[socket.socket, str]:
        """One that accepts nothing by itself, and its address."""
        listener = socket.create_server(("127.0.0.1", 0), backlog=backlog)
        self.addCleanup(listener.close)
        return listener, "127.0.0.1:{}".format(listener.getsockname()[1])

    def test_one_that_takes_connections_and_answers_nothing(self) -> None:
        _, address = self.listener()
        self.assertIn("nodes", self.proxy_before(address, self.server.address).ask(op="show"))

    def test_one_that_can_not_be_connected_to(self) -> None:
        """Its backlog is full, so a connection comes neither about nor to an end."""
        listener, address = self.listener(backlog=0)
        for _ in range(3):
            waiting = socket.socket()
            self.addCleanup(waiting.close)
            waiting.setblocking(False)
            with contextlib.suppress(BlockingIOError):
                waiting.connect(listener.getsockname())
        self.assertIn("nodes", self.proxy_before(address, self.server.address).ask(op="show"))

    def test_one_that_falls_silent(self) -> None:
        """With orders on their way, which go to the next address as they were."""
        os.mkdir(f"{self.folder}/other")
        other = Server(f"{self.folder}/other", ring(3))
        self.addCleanup(other.kill)
        proxy = self.proxy_before(self.server.address, other.address)
        self.assertEqual(len(proxy.ask(op="show")["nodes"]), 2)
        assert self.server.process
        self.server.process.send_signal(signal.SIGSTOP)
        answer = proxy.ask(op="reset", client=1, number=1, node=3)
        self.assertEqual(answer["kind"], "started")
        self.assertEqual(len(proxy.ask(op="show")["nodes"]), 3)

    def test_the_same_one_again(self) -> None:
        proxy = self.proxy_before(self.server.address)
        proxy.ask(op="show")
        assert self.server.process
        self.server.process.send_signal(signal.SIGSTOP)
        threading.Timer(4.0, self.server.process.send_signal, [signal.SIGCONT]).start()
        self.assertEqual(proxy.ask(op="reset", client=1, number=1, node=1)["kind"], "started")

    def test_one_that_answers_slowly_is_not_left(self) -> None:
        """Each answer begins the time anew."""
        listener, address = self.listener()
        came: list[int] = []

        def serve() -> None:
            with contextlib.suppress(OSError):
                while True:
                    connection, _ = listener.accept()
                    came.append(0)
                    with connection, connection.makefile("rb") as lines:
                        for line in lines:
                            time.sleep(1.0)
                            came[-1] += 1
                            answer = VIEW if b"show" in line else {"kind": "done", "step": 1}
                            connection.sendall(json.dumps(answer, separators=(",", ":")).encode() + b"\n")
        threading.Thread(target=serve, daemon=True).start()
        proxy = self.proxy_before(address, silent=5.0)
        with proxy.connect() as client:
            client.socket.settimeout(DEADLINE)
            client.send(*({"op": "add", "client": number, "number": 1, "node": number, "group": 1} for number in range(1, 9)))
            self.assertEqual([client.reply()["kind"] for _ in range(8)], ["done"] * 8)
        self.assertEqual(sum(came), 8)


class Noting(Fake):
    """A coordinator in memory that notes the orders of client 1 by their numbers. Before it carries out some, it calls a function once."""

    def __init__(self) -> None:
        self.before: dict[int, Callable[[], object]] = {}
        self.numbers: list[int] = []
        super().__init__()
        self.nodes[1] = [1, 0, 0]

    def respond(self, line: bytes) -> str:
        request = json.loads(line)
        if request.get("client") == 1:
            self.numbers.append(request["number"])
            self.before.pop(request["number"], int)()
        return super().respond(line)


@needs_proxy
class Busy(unittest.TestCase):
    """The proxy is busy for longer than a server may be silent. An answer that came meanwhile counts, and no order is sent twice."""

    def setUp(self) -> None:
        folder = tempfile.TemporaryDirectory()
        self.addCleanup(folder.cleanup)
        self.folder = folder.name
        self.server = Noting()
        self.addCleanup(self.server.close)

    def order(self, proxy: Proxy, before: Callable[[], object] = int, meanwhile: Callable[[], object] = int) -> None:
        """Sends two orders with garbage between them. Each order goes to the server once, and is answered."""
        one, other = ({"op": "reset", "client": 1, "number": number, "node": 1} for number in (1, 2))
        with proxy.connect() as client:
            client.ask(op="show")
            before()
            client.send(one, b"fly\n", other)
            meanwhile()
            answers = [client.reply() for _ in range(3)]
        self.assertEqual([answer.get("kind", answer.get("fault")) for answer in answers], ["finished", "BadJson", "finished"])
        self.assertEqual(self.server.numbers, [1, 2])

    def test_one_that_stands_still(self) -> None:
        """The server answers while the system does not run the proxy."""
        proxy = Proxy(self.folder, self.server.address, "--server-silent", str(SILENT))
        self.addCleanup(proxy.kill)

        def pause() -> None:
            assert proxy.process
            proxy.process.send_signal(signal.SIGSTOP)
            until("that it stands still", lambda: state_of(proxy) == "T")
            threading.Timer(LONGER, proxy.process.send_signal, [signal.SIGCONT]).start()
        self.server.before = {1: pause}
        self.order(proxy)

    def test_one_that_waits_for_its_audit(self) -> None:
        """After the first answer it takes the second order, and waits before it sends that order to the server."""
        proxy = Piped(self.folder, self.server.address, "--server-silent", str(SILENT), "--audit", "-")
        self.addCleanup(proxy.kill)
        self.server.before = {2: lambda: time.sleep(0.2)}

        def wait() -> None:
            until("the first order", lambda: self.server.numbers)
            time.sleep(LONGER)
            proxy.await_output(b"BadJson")
        self.order(proxy, proxy.stop_reading, wait)


def state_of(proxy: Proxy) -> str:
    """The letter that the system has for the state of the process."""
    assert proxy.process
    with open(f"/proc/{proxy.process.pid}/stat", encoding="ascii") as file:
        return file.read().rpartition(")")[2].split()[0]


if __name__ == "__main__":
    unittest.main()
