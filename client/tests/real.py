"""Replaces the coordinator in memory by the program: `resetd serve` over a new store, behind a port that fails in the ways that
a test asks for."""

from __future__ import annotations

import json
import os
import shutil
import socket
import subprocess
import tempfile
import time
from typing import Any

from wire import Wire

STOPPED = '{"name":"Stopped","refused":1}'
SECONDS = 300.0  # seconds within which a server answers or a reset ends, even on a busy machine


class Real(Wire):
    """One coordinator. `close` ends it."""

    is_real = True

    def __init__(self, program: str) -> None:
        self.program = program
        self._folder = tempfile.TemporaryDirectory()
        self.store = os.path.join(self._folder.name, "store")
        self.signals = os.path.join(self._folder.name, "signals")
        self.behind = ""  # the address of the program
        self.process: subprocess.Popen[bytes] | None = None
        self.found("")
        super().__init__()

    def found(self, topology: str) -> None:
        """Creates a store with the nodes and links of a topology."""
        self.end()
        if os.path.exists(self.store):
            os.remove(self.store)
        with open(f"{self.store}.toml", "w", encoding="utf-8") as file:
            file.write(f"half = 32768\n{topology}")
        subprocess.run([self.program, "init", self.store, f"{self.store}.toml"], check=True, capture_output=True)
        self.start()

    def ring(self, nodes: int) -> None:
        """Makes a row of linked nodes."""
        self.found("".join(f"[[node]]\nid = {node}\ngroup = 1\n" for node in range(1, nodes + 1)) +
                   "".join(f"[[link]]\na = {node}\nb = {node + 1}\n" for node in range(1, nodes)))

    def start(self) -> None:
        with open(self.signals, "wb") as signals:
            self.process = subprocess.Popen([self.program, "serve", self.store, "127.0.0.1:0"], stdin=subprocess.DEVNULL,
                                            stdout=signals, stderr=subprocess.DEVNULL)
        self.behind = ""
        until = time.monotonic() + SECONDS
        while not self.behind and time.monotonic() < until and self.process.poll() is None:
            with open(self.signals, encoding="utf-8") as lines:
                first = lines.readline()
            self.behind = first.split()[1] if first.endswith("\n") else ""
            time.sleep(0.001)
        if not self.behind:
            raise RuntimeError(f"{self.program} does not listen")

    def end(self) -> None:
        """Ends the program like a crash."""
        if self.process and self.process.poll() is None:
            self.process.kill()
        if self.process:
            self.process.wait()

    def close(self) -> None:
        self.end()
        super().close()
        self._folder.cleanup()

    def respond(self, line: bytes) -> str:
        return self.direct(line) if not self.is_stopped or b'"close"' in line or b'"resend"' in line else STOPPED

    def direct(self, text: bytes) -> str:
        """Returns the line that answers a text, without the faults of a test."""
        host, port = self.behind.split(":")
        with socket.create_connection((host, int(port)), timeout=SECONDS) as connection:
            connection.sendall(text)
            if not text.endswith(b"\n"):
                connection.shutdown(socket.SHUT_WR)
            with connection.makefile("r", encoding="utf-8") as lines:
                return lines.readline().rstrip("\n")

    def ask(self, **request: Any) -> dict[str, Any]:
        answer: dict[str, Any] = json.loads(self.direct(json.dumps(request).encode() + b"\n"))
        return answer

    def await_settled(self) -> dict[str, Any]:
        """Returns the view once no node is in a reset, nothing is in transit and everything is on the disk."""
        until = time.monotonic() + SECONDS
        while time.monotonic() < until:
            view = self.ask(op="show")
            if all(row[2] == "ready" for row in view["nodes"]) and self.ask(op="resend")["count"] == 0 and \
                    (quiet := self.ask(op="show"))["accepted"] == quiet["settled"]:
                return quiet
            time.sleep(0.002)
        raise RuntimeError("a reset does not end")

    def row(self, node: int) -> list[int]:
        return next([row[1], row[4], row[5]] for row in self.await_settled()["nodes"] if row[0] == node)

    @property
    def nodes(self) -> dict[int, list[int]]:
        return {row[0]: [row[1], row[4], row[5]] for row in self.await_settled()["nodes"]}

    def pairs(self) -> list[tuple[int, int]]:
        return [(row[0], row[1]) for row in self.await_settled()["links"]]

    def last(self, client: int) -> int:
        """Finds the number of a client's last order from refusals."""
        for number in range(1, 1_000):
            name = self.ask(op="confirm", client=client, number=number, node=64, epoch=0)["name"]
            if name == "NumberReused":
                return number
            if name != "OutOfTurn":
                return number - 1
        raise RuntimeError("no count was found")

    def reset(self, node: int) -> None:
        self.by_somebody("reset", node=node)

    def copy(self) -> Any:
        """Returns a copy of the store, which is not served meanwhile."""
        self.await_settled()
        self.ask(op="close")
        if self.process:
            self.process.wait(SECONDS)
        path = tempfile.mktemp(dir=self._folder.name)
        shutil.copy(self.store, path)
        self.start()
        return path

    def restore(self, copy: Any) -> None:
        self.end()
        shutil.copy(copy, self.store)
        self.start()
