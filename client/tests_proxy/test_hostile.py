"""Clients that do what they should not: everybody else is served meanwhile."""

from __future__ import annotations

import contextlib
import select
import shutil
import socket
import struct
import threading
import unittest
from typing import Any

from case import Case, Client, Proxy, unread, until

SHOW = b'{"op":"show"}\n'


class Beside(Case):
    nodes = 4

    def others_are_served(self) -> None:
        """Another client orders and looks."""
        with self.proxy.connect() as client:
            self.number = getattr(self, "number", 0) + 1
            self.assertIn("kind", client.ask(op="reset", client=9, number=self.number, node=1))
            self.assertIn("nodes", client.ask(op="show"))

    def test_silent_ones_and_half_lines(self) -> None:
        for text in (b"", b"{", b'{"op":"show"}', b"x" * 600, b"\n" * 63 + b"{"):
            for _ in range(20):
                client = self.client()
                client.send(text)
        self.others_are_served()

    def test_one_that_never_reads(self) -> None:
        """The connection is ended after a while."""
        self.proxy.kill()
        self.proxy = self.started("--stuck", "1")
        client = self.client()
        client.socket.setblocking(False)
        with contextlib.suppress(BlockingIOError):
            while True:
                client.socket.send(SHOW * 1_000)
        self.others_are_served()
        until("its end", lambda: is_ended(client))
        self.others_are_served()

    def test_one_that_does_not_read_is_read_no_further(self) -> None:
        client = self.client()
        client.socket.setblocking(False)
        for _ in range(3):
            with contextlib.suppress(BlockingIOError):
                while True:
                    client.socket.send(SHOW * 1_000)
            self.others_are_served()
        self.assertGreater(unread(client), 0)

    def test_ones_that_do_not_read_take_little_memory(self) -> None:
        """However many answers wait for them."""
        self.others_are_served()
        before = self.resident()
        for _ in range(40):
            client = self.client()
            client.socket.setblocking(False)
            with contextlib.suppress(BlockingIOError):
                client.socket.send(SHOW * 10_000)
        for _ in range(20):
            self.others_are_served()
        self.assertLess(self.resident() - before, 40 * 256)

    def resident(self) -> int:
        """The memory of the proxy, in KiB."""
        assert self.proxy.process
        with open(f"/proc/{self.proxy.process.pid}/status", encoding="ascii") as file:
            return next(int(line.split()[1]) for line in file if line.startswith("VmRSS:"))

    def test_one_that_reads_late(self) -> None:
        """Nothing of its answers is lost, and no more is read of it than it may have in the works."""
        client = self.client()
        sending = threading.Thread(target=client.send, args=[SHOW * 5_000])
        sending.start()
        self.others_are_served()
        for _ in range(5_000):
            self.assertIn("nodes", client.reply())
        sending.join()

    def test_one_that_floods(self) -> None:
        stop = threading.Event()

        def flood() -> None:
            with self.proxy.connect() as client, contextlib.suppress(OSError):
                while not stop.is_set():
                    client.send(SHOW * 200, b"fly\n" * 200, b'{"op":"confirm","node":1,"epoch":77}\n' * 100)
                    for _ in range(500):
                        client.reply()
        flooding = threading.Thread(target=flood)
        flooding.start()
        try:
            for _ in range(5):
                self.others_are_served()
        finally:
            stop.set()
            flooding.join()

    def test_ones_that_leave_in_the_midst(self) -> None:
        """With answers on their way, by an end and by a reset of the connection; none of what they asked for is mixed up."""
        for place in range(40):
            client = self.client()
            client.send(SHOW * 30, b'{"op":"confirm","node":1,"epoch":9}\n' * 20)
            if place % 2:
                client.socket.setsockopt(socket.SOL_SOCKET, socket.SO_LINGER, struct.pack("ii", 1, 0))
            client.close()
        self.others_are_served()

    def test_ones_that_connect_and_close_on_and_on(self) -> None:
        client, enough, ended = self.client(), threading.Event(), list[int]()

        def come_and_go() -> None:
            count = 0
            while not enough.is_set():
                with socket.socket(socket.AF_UNIX) as connection, contextlib.suppress(BlockingIOError):
                    connection.setblocking(False)
                    connection.connect(self.proxy.path)
                    count += 1
            ended.append(count)
        coming = [threading.Thread(target=come_and_go) for _ in range(3)]
        for each in coming:
            each.start()
        try:
            for _ in range(30):
                self.assertIn("nodes", client.ask(op="show"))
        finally:
            enough.set()
            for each in coming:
                each.join()
        self.assertGreater(min(ended), 0)

    def test_bytes_one_by_one_and_many_lines_in_one_write(self) -> None:
        client = self.client()
        for byte in SHOW:
            client.send(bytes([byte]))
        self.assertIn("nodes", client.reply())
        client.send(SHOW * 500 + b"x" * 100_000 + b"\n" + SHOW)
        for _ in range(500):
            self.assertIn("nodes", client.reply())
        self.assertEqual(client.reply(), {"fault": "TooLong"})
        self.assertIn("nodes", client.reply())

    def test_one_that_sends_no_more_gets_its_answers(self) -> None:
        client = self.client()
        client.send(SHOW * 200)
        client.socket.shutdown(socket.SHUT_WR)
        for _ in range(200):
            self.assertIn("nodes", client.reply())
        self.assertEqual(client.line(), b"")


def is_ended(client: Client) -> bool:
    """Whether the other end is closed, whatever of its answers is unread."""
    poller = select.poll()
    poller.register(client.socket, 0)
    return any(event & select.POLLHUP for _, event in poller.poll(0))


@unittest.skipUnless(shutil.which("prlimit"), "it needs prlimit")
class FewDescriptors(Case):
    """A proxy that may open few files."""

    nodes = 2
    most = 100

    def started(self, *arguments: str, **how: Any) -> Proxy:
        return super().started(*arguments, before=("prlimit", f"--nofile={self.most}:{self.most}"), **how)

    def test_more_connections_than_descriptors(self) -> None:
        """Nobody is disconnected for a newcomer; those that wait for a place are served once others leave."""
        clients = [self.client() for _ in range(self.most + 30)]
        for client in clients[:self.most // 2]:
            client.close()
        for client in clients[self.most // 2:]:
            self.assertIn("nodes", client.ask(op="show"))


if __name__ == "__main__":
    unittest.main()
