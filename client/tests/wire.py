"""A port that answers lines, one connection after another, and fails in the ways that a test asks for."""

from __future__ import annotations

import json
import socket
import threading
from typing import IO, Any

MOST_BYTES = 512
SOMEBODY = 15  # the client of the orders that a test makes in somebody else's place


class Wire:
    """Serves on its own port. `faults` determine how the next lines fail: `lose` (the line is dropped, without an answer),
    `mute` (the line is carried out, without an answer), `` (no fault), or a text to be sent as the answer. `seen` are the
    received requests; `lines_each` is the number of lines answered in one connection."""

    def __init__(self) -> None:
        self.is_stopped, self.lines_each = False, 1 << 30
        self.faults: list[str] = []
        self.seen: list[dict[str, object]] = []
        self.connections = 0
        self._listener = socket.create_server(("127.0.0.1", 0))
        self.address = "127.0.0.1:{}".format(self._listener.getsockname()[1])
        threading.Thread(target=self._serve, daemon=True).start()

    def respond(self, line: bytes) -> str:
        """Returns the answer to a line, without its line feed."""
        raise NotImplementedError

    def by_somebody(self, op: str, **members: int) -> None:
        """Gives an order in somebody else's place, without the faults of a test."""
        request = {"op": op, "client": SOMEBODY, "number": self.last(SOMEBODY) + 1, **members}
        answer: dict[str, Any] = json.loads(self.respond(json.dumps(request).encode() + b"\n"))
        if "kind" not in answer:
            raise RuntimeError(f"{request} was answered {answer}")
        self.await_settled()

    def last(self, client: int) -> int:
        """Returns the number of a client's last order."""
        raise NotImplementedError

    def await_settled(self) -> Any:
        """Waits until no node is in a reset."""
        raise NotImplementedError

    def close(self) -> None:
        # a thread in `accept` keeps the socket open, so it is woken first
        self._listener.shutdown(socket.SHUT_RDWR)
        self._listener.close()

    def _serve(self) -> None:
        while True:
            try:
                connection, _ = self._listener.accept()
            except OSError:
                return
            self.connections += 1
            try:
                with connection, connection.makefile("rb") as lines:
                    self._serve_lines(connection, lines)
            except OSError:
                pass

    def _serve_lines(self, connection: socket.socket, lines: IO[bytes]) -> None:
        for served, line in enumerate(lines):
            if served >= self.lines_each:
                return
            try:
                self.seen.append(json.loads(line))
            except ValueError:
                pass
            fault = self.faults.pop(0) if self.faults else ""
            if fault == "lose":
                return
            text = self.respond(line) if fault in ("", "mute") else fault
            if fault == "mute":
                return
            connection.sendall(text.encode() + b"\n")
            if text == '{"kind":"closed"}':
                return
