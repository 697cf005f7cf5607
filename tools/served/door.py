"""A whole door: a coordinator on a device that forgets, a proxy before it, and a member for each node, in three languages."""

import contextlib
import os
import random
import shutil
import subprocess
import sys
import time
from collections.abc import Callable, Sequence
from dataclasses import dataclass
from typing import Any

from .forgetful import Forgetful
from .ports import held_address
from .proxy import Proxy
from .ring import topology
from .server import Away, Server

ROOT = os.path.dirname(os.path.dirname(os.path.dirname(os.path.abspath(__file__))))
NODES = range(1, 65)
HALF = 32_768
# The other members are in Python. All of them leave the numbering of orders to the proxy.
OF_C, OF_GO = range(1, 8), range(8, 15)
# A replaced part of a text, and its replacement.
Exchanges = Sequence[tuple[str, str]]
# Adds a count of its starts to the state of the member in Go.
COUNTS_STARTS: Exchanges = [
    ("\tFence   string          // of that moment\n", "\tFence   string          // of that moment\n\tStarts  int\n"),
    ('kept.Begun, kept.First = epoch, ""', 'kept.Begun, kept.First, kept.Starts = epoch, "", kept.Starts+1')]


class Failed(Exception):
    """The door violated a requirement."""


@dataclass(frozen=True)
class Programs:
    """The programs: the coordinator, the proxy, and the members in C and in Go."""

    coordinator: str
    proxy: str
    of_c: str
    of_go: str


def build_members(folder: str, library: str, coordinator: str, proxy: str, exchanges: Exchanges = ()) -> Programs:
    """Compiles the members. The source of those in Go gets a count of starts and then these exchanges. Raises Failed if a
    compiler is missing: no language is left out."""
    missing = [package for command, package in (("cc", "gcc"), ("go", "golang-go")) if not shutil.which(command)]
    if missing:
        raise Failed(f"these Debian packages are missing: {' '.join(missing)}")
    examples, programs = f"{ROOT}/examples/members", Programs(coordinator, proxy, f"{folder}/of_c", f"{folder}/of_go")
    include = f"{ROOT}/crates/resetd_member/include"
    with open(f"{examples}/plain_member.go", encoding="utf-8") as file:
        text = file.read()
    for old, new in [*COUNTS_STARTS, *exchanges]:
        if text.count(old) != 1:
            raise Failed(f"plain_member.go contains {old!r} {text.count(old)} times, not once")
        text = text.replace(old, new)
    sources = f"{folder}/of_go.source"
    os.mkdir(sources)
    with open(f"{sources}/plain_member.go", "w", encoding="utf-8") as file:
        file.write(text)
    for name in ("proxy.go", "files.go"):
        shutil.copy(f"{examples}/{name}", sources)
    subprocess.run(["cc", "-O1", "-I", include, "-o", programs.of_c, f"{examples}/member.c", f"{library}/libresetd_member.a"], check=True)
    folders = {name: f"{folder}/{name.lower()}" for name in ("GOCACHE", "GOPATH", "GOTMPDIR")}
    os.mkdir(folders["GOTMPDIR"])
    subprocess.run(["go", "build", "-o", programs.of_go, "plain_member.go", "proxy.go", "files.go"], check=True, cwd=sources,
                   env={**os.environ, **folders, "CGO_ENABLED": "0"})
    return programs


def until(what: str, holds: Callable[[], Any], seconds: float) -> None:
    end = time.monotonic() + seconds
    while not holds():
        if time.monotonic() > end:
            raise Failed(f"within {seconds:g} s this did not happen: {what}")
        time.sleep(0.05)


def read_tail(path: str, most: int = 1_000) -> str:
    with open(path, errors="replace", encoding="utf-8") as file:
        return file.read()[-most:].strip()


def with_stacks() -> dict[str, str]:
    """The environment of a Python process that writes the stacks of its threads when it is aborted."""
    return {**os.environ, "PYTHONFAULTHANDLER": "1"}


class Members:
    """A process for each node. One that ends early is a fault."""

    def __init__(self, folder: str, programs: Programs, address: str) -> None:
        self._folder, self._programs, self._address = folder, programs, address
        self._running = dict[int, subprocess.Popen[bytes]]()
        for node in NODES:
            os.mkdir(self.folder(node))

    def folder(self, node: int) -> str:
        return f"{self._folder}/{node}"

    def _command(self, node: int) -> list[str]:
        in_python = [sys.executable, f"{ROOT}/tools/served/door_member.py"]
        command = [self._programs.of_c] if node in OF_C else [self._programs.of_go] if node in OF_GO else in_python
        return [*command, str(node), self._address, self.folder(node)]

    def start(self, node: int) -> None:
        if node not in self._running:
            with open(f"{self.folder(node)}/lines", "ab") as lines:
                self._running[node] = subprocess.Popen(self._command(node), stdin=subprocess.DEVNULL, stdout=lines, stderr=lines)

    def kill(self, node: int) -> None:
        member = self._running.pop(node, None)
        if member:
            member.kill()
            member.wait()
        with contextlib.suppress(FileNotFoundError):
            os.remove(f"{self.folder(node)}/run")  # a message to a dead member is not heard

    def start_all(self) -> None:
        for node in NODES:
            self.start(node)

    def kill_all(self) -> None:
        for node in NODES:
            self.kill(node)

    def expect_running(self) -> None:
        for node, member in self._running.items():
            if member.poll() is not None:
                raise Failed(f"member {node} ended by itself with status {member.returncode}: {read_tail(f'{self.folder(node)}/lines')}")


class Door:
    """All of these, in one folder."""

    def __init__(self, folder: str, programs: Programs, choice: random.Random, ignores_syncs: bool = False) -> None:
        self.choice = choice
        self.server = Server(programs.coordinator, f"{folder}/store", held_address())
        made = self.server.found(topology(HALF, 1))
        if made[0] != 0:
            raise Failed(f"resetd init: {made}")
        self.device = Forgetful(self.server.store, folder, choice, ignores_syncs)
        self.start_server()
        self.proxy = Proxy(folder, self.server.address, "--signals", self.server.signals, program=programs.proxy)
        self.members = Members(folder, programs, self.proxy.address)

    def start_server(self) -> None:
        if not self.server.start(*self.device.before()):
            raise Failed(f"the coordinator did not start: {self.server.ended()}")

    def kill_server(self) -> None:
        self.server.process.kill()
        self.server.process.wait()
        self.device.take_calls()
        self.start_server()

    def cut_power(self) -> None:
        """Cuts the coordinator's power. All earlier replies, views and signals must be durable."""
        self.server.process.kill()
        self.server.process.wait()
        self.device.cut()
        status, lines = self.server.command("check")
        if status or int(lines[0].split()[1]) < self.device.released:
            raise Failed(f"step {self.device.released} was released, and after a power cut resetd check says {lines}")
        epochs = self._stored_epochs()
        for node, epoch in self.device.signalled.items():
            if epochs[node] < epoch:
                raise Failed(f"epoch {epoch} of node {node} was signalled, and after a power cut it has epoch {epochs[node]}")
        self.start_server()

    def _stored_epochs(self) -> dict[int, int]:
        """Returns the epoch of each node in the store, while no server serves it."""
        rows = [line.split() for line in self.server.command("show")[1]]
        return {int(row[1]): int(row[5]) for row in rows if row[0] == "node"}

    def reset(self, node: int) -> None:
        """Asks for a reset, at whichever address answers."""
        with contextlib.suppress(Away):
            self.proxy.ask(op="reset", node=node)

    def end(self) -> None:
        self.members.kill_all()
        self.proxy.kill()
        self.server.end()
