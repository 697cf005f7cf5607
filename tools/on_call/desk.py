"""The tools of a trial for a row: a scratch folder, stores, servers, and the commands that a person types."""

from __future__ import annotations

import os
import subprocess
import sys
from collections.abc import Callable
from typing import NamedTuple

from support.case import until
from support.preloaded import environment
from support.program import PROGRAM, ROOT, ran
from support.serving import Serving
from support.stores import HALF, topology

LONG = 120  # seconds within which a command has to end on a busy machine


class Typed(NamedTuple):
    """The result of a typed command: its exit status, and its output."""

    status: int
    text: str


class Trial(NamedTuple):
    """The trial of a row, and whether it waits for minutes."""

    call: Callable[[Desk], None]
    is_slow: bool


TRIALS: dict[str, Trial] = {}  # by the words with which a row begins
LEFT_OUT: dict[str, str] = {}  # the reason why a row has no trial


class NotSeen(AssertionError):
    """The row's line was not seen, or its command did not help."""


def row(beginning: str, is_slow: bool = False) -> Callable[[Callable[[Desk], None]], Callable[[Desk], None]]:
    """Registers the trial of the row whose first cell begins with these words."""
    def take(call: Callable[[Desk], None]) -> Callable[[Desk], None]:
        TRIALS[beginning] = Trial(call, is_slow)
        return call
    return take


def see(where: str, *wanted: str) -> None:
    for text in wanted:
        if text not in where:
            raise NotSeen(f"not seen: {text}\nin: {where[-2_000:]}")


class Desk:
    """The folder and the processes of one trial."""

    def __init__(self, folder: str) -> None:
        self.folder = folder

    def path(self, name: str) -> str:
        return os.path.join(self.folder, name)

    def write(self, name: str, data: bytes) -> str:
        with open(self.path(name), "wb") as file:
            file.write(data)
        return self.path(name)

    def store(self, nodes: int = 2, name: str = "store") -> str:
        """Creates a store with a row of linked nodes."""
        text = topology([(node, 1) for node in range(1, nodes + 1)], [(node, node + 1) for node in range(1, nodes)], HALF)
        see(ran("init", self.path(name), self.write(f"{name}.toml", text.encode())).printed, "created")
        return self.path(name)

    def serve(self, store: str, **settings: str | int) -> Serving:
        """Returns a server, some of whose calls may be changed."""
        return Serving(store, env=environment(self.folder, **settings) if settings else None)

    def start_ends(self, store: str, status: int, name: str, address: str = "127.0.0.1:0",
                   **settings: str | int) -> None:
        """Checks that a start ends with this status and this fault."""
        ended = ran("serve", store, address, env={**os.environ, **environment(self.folder, **settings)} if settings else None)
        if (ended.status, ended.fault) != (status, f"resetd: {name}\n"):
            raise NotSeen(f"a start ended with {ended}, and not with {name}")

    def resetctl(self, *arguments: str, server: Serving | None = None, address: str | None = None, timeout: float = LONG,
                 seconds: float = LONG) -> Typed:
        """Runs `resetctl` with these arguments. Returns its output and its status."""
        at = address or (server.address if server else "127.0.0.1:1")
        return self.type_command(sys.executable, "-B", f"{ROOT}/client/resetctl", "--state", self.path("state"), "--address", at,
                                 "--patience", str(timeout), "--seconds", str(seconds), *arguments)

    def type_command(self, *command: str) -> Typed:
        done = subprocess.run(command, stdin=subprocess.DEVNULL, stdout=subprocess.PIPE, stderr=subprocess.STDOUT, text=True,
                              timeout=5 * LONG, check=False)
        return Typed(done.returncode, done.stdout)

    def health(self, server: Serving | None, *arguments: str, timeout: float = LONG, seconds: float = LONG) -> Typed:
        """Returns the output of the monitoring check. An epoch may be unconfirmed meanwhile."""
        return self.resetctl("health", *(arguments or ("--unconfirmed", "1000000")), server=server, timeout=timeout, seconds=seconds)

    def await_health(self, server: Serving, wanted: str, *arguments: str) -> Typed:
        """Runs the check until it prints this."""
        return until(wanted, lambda: wanted in (typed := self.health(server, *arguments)).text and typed)

    def expect_served(self, store: str, *wanted: str) -> None:
        """Checks that a start succeeds, the check finds nothing, and the network shows this store."""
        with Serving(store) as server:
            see(self.health(server, "--store", store, "--unconfirmed", "1000000").text, "resetd OK: well")
            see(self.resetctl("show", server=server).text, *wanted)
            if server.close().status:
                raise NotSeen("the server did not end in order")

    def why(self, store: str, server: Serving | None = None, *arguments: str) -> str:
        """Returns the output of `why`, which waits 2 s for an answer."""
        return self.resetctl("why", *arguments, store, *([server.address] if server else []), timeout=0, seconds=2).text
