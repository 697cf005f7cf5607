"""A proxy whose audit and metrics are read, and one whose output is a pipe."""

from __future__ import annotations

import os
import subprocess
from typing import Any

from case import OPS, USER, Case, Client, Proxy, policy, unix, until, write_policy

PREFIX = "resetd_front"  # of the names of its metrics


class Audited(Case):
    """A proxy with two principals: this user may do everything, `look` may only look."""

    nodes = 3
    has_proxy = False

    def setUp(self) -> None:
        super().setUp()
        self.policy, self.look = f"{self.folder}/policy.toml", f"{self.folder}/look"
        self.write(policy((USER, OPS), ("look", ["show", "watch"])))
        self.proxy = self.started(*self.arguments())

    def arguments(self) -> list[str]:
        return ["--policy", self.policy, "--listen", f"look={self.look}"]

    def write(self, text: str) -> None:
        write_policy(self.policy, text)

    def looking(self) -> Client:
        client = Client(unix(self.look))
        self.addCleanup(client.close)
        return client

    def of(self, who: str) -> list[dict[str, Any]]:
        """The lines of a principal."""
        return [line for line in self.proxy.audited() if line.get("who") == who]


def metrics_of(path: str) -> dict[str, float]:
    """The series of a text, by name and labels; none before it is written."""
    try:
        with open(path, encoding="ascii") as file:
            lines = file.read().splitlines()
    except FileNotFoundError:
        return {}
    return {name: float(count) for name, _, count in (line.rpartition(" ") for line in lines if not line.startswith("#"))}


class Piped(Proxy):
    """A proxy whose standard output is a pipe that is full, and that nobody reads."""

    def spawn(self, errors: int) -> None:
        self.reader, writer = os.pipe()
        os.set_blocking(self.reader, False)
        with os.fdopen(writer, "wb") as output:
            self.process = subprocess.Popen(self._command, stdin=subprocess.DEVNULL, stdout=output, stderr=errors)
            self.fill = os.dup(output.fileno())

    def stop_reading(self) -> None:
        """Fills the pipe after a connection's first line, so that the next line waits."""
        self.await_output(b"begins")
        os.set_blocking(self.fill, False)
        try:
            while True:
                os.write(self.fill, b"x" * 4_096)
        except BlockingIOError:
            os.set_blocking(self.fill, True)

    def await_output(self, part: bytes) -> bytes:
        """Reads until this part has come, and returns all that came."""
        came = bytearray()

        def has_come() -> bool:
            try:
                came.extend(os.read(self.reader, 65_536))
            except BlockingIOError:
                pass
            return part in came
        until(f"{part!r} in the output", has_come)
        return bytes(came)

    def read_rest(self) -> bytes:
        """Returns the content of the pipe, after the end of the process."""
        os.close(self.fill)
        with os.fdopen(self.reader, "rb") as pipe:
            return pipe.read()
