"""A connection to a coordinator that stays open, and one client's resets over it."""

import socket
from collections.abc import Sequence

from served.clients import Lost


class Connection:
    def __init__(self, address: str) -> None:
        self.address = address
        self.connect()

    def connect(self) -> None:
        host, port = self.address.rsplit(":", 1)
        self.socket = socket.create_connection((host, int(port)), timeout=30)
        self.socket.setsockopt(socket.IPPROTO_TCP, socket.TCP_NODELAY, 1)
        self.replies = self.socket.makefile("rb")

    def ask(self, *lines: bytes) -> list[bytes]:
        """Sends lines at once, and then reads their replies. A server ends a connection after a reply once one of its
        instances is too old: what has no reply then is sent again over the next one."""
        replies = self.speak(lines)
        while len(replies) < len(lines):
            self.close()
            self.connect()
            replies += self.speak(lines[len(replies):])
        return replies

    def speak(self, lines: Sequence[bytes]) -> list[bytes]:
        """The replies that come before the connection is over."""
        replies: list[bytes] = []
        try:
            self.socket.sendall(b"".join(lines))
            while len(replies) < len(lines) and (reply := self.replies.readline()).endswith(b"\n"):
                replies.append(reply)
        except ConnectionError:
            pass
        return replies

    def close(self) -> None:
        self.replies.close()
        self.socket.close()


class Resets:
    """Resets of node 1 by client 1, numbered on from the last one, each of which is answered by this kind."""

    def __init__(self, kind: str) -> None:
        self.reply, self.number = b'{"kind":"%s"' % kind.encode(), 0

    def line(self) -> bytes:
        self.number += 1
        return b'{"op":"reset","client":1,"number":%d,"node":1}\n' % self.number

    def ask(self, connection: Connection, count: int = 1) -> None:
        """That many, sent before the first reply is read."""
        for reply in connection.ask(*[self.line() for _ in range(count)]):
            if not reply.startswith(self.reply):
                raise Lost(f"a reset was answered {reply!r}")
