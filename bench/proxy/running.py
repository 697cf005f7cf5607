"""The proxy before a server, and the tools that measure it."""

from __future__ import annotations

import contextlib
import functools
import os
import pathlib
import subprocess
import time
from collections.abc import Callable, Sequence
from dataclasses import dataclass
from typing import Self

HERE = pathlib.Path(__file__).resolve().parent
OPS = ["add", "remove", "join", "drop", "reset", "confirm", "show", "watch", "resend", "close"]
START_SECONDS = 60.0  # within which a program has to listen
KINDS = ("numbered", "own", "redis", "etcd")


@dataclass(frozen=True)
class Tools:
    """The built tools, and the programs that are measured."""

    folder: str
    proxy: str
    server: str
    library: str  # by which syncs are counted

    def build(self) -> None:
        for name in ("drive", "answering"):
            text = (HERE / f"{name}.c.txt").read_text(encoding="utf-8")
            subprocess.run([os.environ.get("CC", "cc"), "-O2", "-x", "c", "-", "-o", self.tool(name)], input=text, text=True, check=True)

    def tool(self, name: str) -> str:
        return f"{self.folder}/{name}"

    def drive(self, kind: str, address: str, connections: int, orders: int, outstanding: int, process: int) -> Driven:
        """What orders over many connections took."""
        arguments = [kind, address, *map(str, (connections, orders, outstanding, process))]
        ran = subprocess.run([self.tool("drive"), *arguments], stdout=subprocess.PIPE, text=True, check=True)
        rate, cost, memory, times = ran.stdout.strip().split(", ")
        before, within, _ = map(int, memory.split()[1:])
        return Driven(int(rate.split()[0]), float(cost.split()[0]), (within - before) / connections, *map(int, times.split()[1:]))


@dataclass(frozen=True)
class Driven:
    """Orders a second, the microseconds of processor time for each, the KiB of a connection, and the microseconds until an answer: the
    median and the 99th percentile."""

    rate: int
    cost: float
    memory: float
    median: int
    most: int


def await_true(what: str, holds: Callable[[], bool]) -> None:
    end = time.monotonic() + START_SECONDS
    while not holds():
        if time.monotonic() > end:
            raise SystemExit(f"{what} did not come within {START_SECONDS:g} s")
        time.sleep(0.01)


class Running:
    """A program in a folder, which ends with the block."""

    def __init__(self, command: Sequence[str], messages: str) -> None:
        with open(messages, "ab") as file:
            self.process = subprocess.Popen(command, stdin=subprocess.DEVNULL, stdout=file, stderr=file)

    def __enter__(self) -> Self:
        return self

    def __exit__(self, *_: object) -> None:
        self.process.kill()
        self.process.wait()


class Proxy(Running):
    """`resetd-proxy`, with a socket for each of these principals, who may do everything."""

    def __init__(self, tools: Tools, address: str, folder: str, *names: str, arguments: Sequence[str] = ()) -> None:
        self.folder, self.names = folder, names or ("all",)
        policy, messages = f"{folder}/policy.toml", f"{folder}/proxy.messages"
        pathlib.Path(policy).write_text(f"[[allow]]\nprincipals = {list(self.names)}\nops = {OPS}\n", encoding="ascii")
        listen = [argument for name in self.names for argument in ("--listen", f"{name}={self.path(name)}")]
        super().__init__([tools.proxy, "serve", "--server", address, "--policy", policy, *listen, *arguments], messages)
        await_true("the proxy", lambda: pathlib.Path(messages).read_text(encoding="utf-8").count("listening ") >= len(self.names))

    def path(self, name: str = "") -> str:
        return f"{self.folder}/{name or self.names[0]}.socket"

    def audited(self) -> int:
        """The bytes of its audit."""
        with contextlib.suppress(FileNotFoundError):
            return os.path.getsize(f"{self.folder}/audit")
        return 0


def audit_arguments(tools: Tools, folder: str) -> list[str]:
    """What has the proxy write an audit, as it does where it is installed."""
    return ["--audit", f"{folder}/audit"] if has_audit(tools.proxy) else []


@functools.cache
def has_audit(proxy: str) -> bool:
    """Whether this build writes an audit: status 2 is that of unknown arguments."""
    arguments = ["serve", "--server", "127.0.0.1:1", "--policy", "/nowhere/policy", "--listen", "a=/nowhere/a", "--audit", "/dev/null"]
    return subprocess.run([proxy, *arguments], capture_output=True, check=False).returncode == 1


class Answering(Running):
    """A server that answers each line at once."""

    def __init__(self, tools: Tools, folder: str) -> None:
        self._messages = f"{folder}/answering.messages"
        super().__init__([tools.tool("answering")], self._messages)
        await_true("a server", lambda: self._said().endswith("\n"))

    def _said(self) -> str:
        return pathlib.Path(self._messages).read_text(encoding="ascii")

    @property
    def address(self) -> str:
        return f"127.0.0.1:{self._said().strip()}"
