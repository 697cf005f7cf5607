"""What the tests of the proxy share: the program with a store, a proxy before it, and clients of plain sockets.

Nothing here waits for a time to pass: it waits for what it needs, with a deadline that only a hang meets.
"""

from __future__ import annotations

import fcntl
import json
import os
import pwd
import socket
import struct
import subprocess
import sys
import tempfile
import termios
import time
import unittest
from collections.abc import Callable, Sequence
from typing import Any, Literal, TypeVar

sys.dont_write_bytecode = True
HERE = os.path.dirname(os.path.abspath(__file__))
CLIENT = os.path.dirname(HERE)
ROOT = os.path.dirname(CLIENT)
sys.path.insert(0, CLIENT)


def program(variable: str) -> str:
    """Returns the absolute path of the program that a variable names; nothing if it names none."""
    path = os.environ.get(variable)
    return os.path.abspath(path) if path else ""


RESETD, RESETD_PROXY = program("RESETD"), program("RESETD_PROXY")
USER = pwd.getpwuid(os.getuid()).pw_name
OPS = ["add", "remove", "join", "drop", "reset", "confirm", "show", "watch", "resend", "close"]
OWN = 15  # the client as which the proxy orders by itself
DENIED = {"fault": "NotAllowed"}
DEADLINE = 120.0  # seconds, which only a hang takes
T = TypeVar("T")

needs_proxy = unittest.skipUnless(RESETD_PROXY, "RESETD_PROXY names no program")
needs_programs = unittest.skipUnless(RESETD and RESETD_PROXY, "RESETD or RESETD_PROXY names no program")


def until(what: str, holds: Callable[[], T | Literal[False] | None], seconds: float = DEADLINE) -> T:
    """Waits until a call returns something true, and returns that."""
    end = time.monotonic() + seconds
    while not (found := holds()):
        if time.monotonic() > end:
            raise AssertionError(f"{what} did not come within {seconds:g} s")
        time.sleep(0.005)
    return found


def ring(nodes: int) -> str:
    """A topology of so many nodes, each linked with the next."""
    links = [(node, node + 1) for node in range(1, nodes)] + ([(1, nodes)] if nodes > 2 else [])
    return "".join([*(f"[[node]]\nid = {node}\ngroup = 1\n" for node in range(1, nodes + 1)),
                    *(f"[[link]]\na = {a}\nb = {b}\n" for a, b in links)])


def policy(*rules: tuple[str, Sequence[str]]) -> str:
    """The text of a policy whose rules are a principal and its ops each."""
    return "".join(f"[[allow]]\nprincipals = ['{principal}']\nops = {list(ops)}\n" for principal, ops in rules)


def write_policy(path: str, text: str) -> None:
    """Replaces a policy as a whole, so that no half of it is read."""
    with open(f"{path}.new", "w", encoding="ascii") as file:
        file.write(text)
    os.rename(f"{path}.new", path)


class Server:
    """`resetd serve`, which may be killed and started again at the same address."""

    def __init__(self, folder: str, topology: str, environment: dict[str, str] | None = None) -> None:
        """`environment` is what the server's environment has besides that of the test."""
        self._environment = {**os.environ, **(environment or {})}
        self.store, self.signals = f"{folder}/store", f"{folder}/signals"
        with open(f"{folder}/topology", "w", encoding="ascii") as file:
            file.write("half = 32768\n" + topology)
        subprocess.run([RESETD, "init", self.store, f"{folder}/topology"], check=True, capture_output=True)
        self.address = "127.0.0.1:0"
        self.process: subprocess.Popen[bytes] | None = None
        self.start()

    def start(self) -> None:
        """Starts it; another process may have the port for a moment."""
        self.address = until("a server that listens", self._try_start)

    def _try_start(self) -> str:
        with open(self.signals, "ab") as file:
            begin = file.tell()
            self.process = subprocess.Popen([RESETD, "serve", self.store, self.address], stdin=subprocess.DEVNULL,
                                            stdout=file, stderr=subprocess.DEVNULL, env=self._environment)
        return until("its first line", lambda: self._address(begin) or ("-" if self._has_ended() else "")).strip("-")

    def _address(self, begin: int) -> str:
        with open(self.signals, "rb") as file:
            file.seek(begin)
            lines = file.read().decode().split("\n")[:-1]
        return next((line.removeprefix("listening ") for line in lines if line.startswith("listening ")), "")

    def _has_ended(self) -> bool:
        return self.process is not None and self.process.poll() is not None

    def kill(self) -> None:
        if self.process and self.process.poll() is None:
            self.process.kill()
        if self.process:
            self.process.wait()

    def ask(self, **request: Any) -> dict[str, Any]:
        """An answer of the port itself, over a connection of its own."""
        host, port = self.address.split(":")

        def answered() -> bytes:
            try:
                with socket.create_connection((host, int(port)), DEADLINE) as connection:
                    connection.sendall(json.dumps(request).encode() + b"\n")
                    with connection.makefile("rb") as lines:
                        return lines.readline()
            except OSError:
                return b""
        answer: dict[str, Any] = json.loads(until("an answer of the port", answered))
        return answer

    def await_settled(self) -> dict[str, Any]:
        """What is shown once no reset is at any node."""
        def quiet() -> dict[str, Any]:
            view = self.ask(op="show")
            return view if view["accepted"] == view["settled"] and all(row[2] == "ready" for row in view["nodes"]) else {}
        return until("the end of a reset", quiet)


class Proxy:
    """`resetd-proxy serve` before a server, with a socket of one principal, which may do everything if the arguments name no policy."""

    def __init__(self, folder: str, servers: str | Sequence[str], *arguments: str, principal: str = USER, before: tuple[str, ...] = ()) -> None:
        """`servers` are the addresses of the server. The arguments in `before` precede the program."""
        self.path, self.audit, self.errors = f"{folder}/proxy.socket", f"{folder}/audit", f"{folder}/proxy.errors"
        usual = {"--patience": "600", "--stuck": "600", "--server-silent": "600", "--audit": self.audit, "--policy": f"{folder}/everything.toml"}
        write_policy(usual["--policy"], policy((principal, OPS)))
        addresses = [servers] if isinstance(servers, str) else servers
        self._command = [*before, RESETD_PROXY, "serve", *(argument for address in addresses for argument in ("--server", address)),
                         "--listen", f"{principal}={self.path}",
                         *(argument for flag, value in usual.items() if flag not in arguments for argument in (flag, value)), *arguments]
        self._principal = principal
        self.process: subprocess.Popen[bytes] | None = None
        self.start()

    def start(self) -> None:
        with open(self.errors, "ab") as errors:
            begin = errors.tell()
            self.spawn(errors.fileno())

        def began() -> bool:
            if self.process and self.process.poll() is not None:
                raise AssertionError(f"the proxy ended: {self.said()}")
            return f"listening {self._principal}\n" in self.said(begin)
        until("a proxy that listens", began)

    def spawn(self, errors: int) -> None:
        """Starts the process, with this file as its standard error, and does not wait until it listens."""
        self.process = subprocess.Popen(self._command, stdin=subprocess.DEVNULL, stdout=subprocess.DEVNULL, stderr=errors)

    def said(self, begin: int = 0) -> str:
        """What it wrote to its standard error."""
        with open(self.errors, "rb") as file:
            file.seek(begin)
            return file.read().decode()

    def audited(self) -> list[dict[str, Any]]:
        """The whole lines of its audit."""
        with open(self.audit, "rb") as file:
            return [json.loads(line) for line in file.read().split(b"\n")[:-1]]

    def await_audited(self, what: str, holds: Callable[[dict[str, Any]], Any]) -> dict[str, Any]:
        return until(what, lambda: next((line for line in self.audited() if holds(line)), {}))

    def kill(self) -> None:
        if self.process and self.process.poll() is None:
            self.process.kill()
        if self.process:
            self.process.wait()

    def connect(self) -> Client:
        return Client(unix(self.path))

    def ask(self, **request: Any) -> dict[str, Any]:
        with self.connect() as client:
            return client.ask(**request)


def unix(path: str) -> socket.socket:
    """A connection to a Unix socket, tried again while nobody listens there."""
    def connected() -> socket.socket | None:
        connection = socket.socket(socket.AF_UNIX)
        try:
            connection.settimeout(DEADLINE)
            connection.connect(path)
            return connection
        except (ConnectionRefusedError, FileNotFoundError, BlockingIOError):
            connection.close()
            return None
    return until("a connection", connected)


class Client:
    """A connection of lines."""

    def __init__(self, connection: socket.socket) -> None:
        self.socket = connection
        self._came = b""

    def __enter__(self) -> Client:
        return self

    def __exit__(self, *_: object) -> None:
        self.close()

    def close(self) -> None:
        self.socket.close()

    def send(self, *requests: dict[str, Any] | bytes) -> None:
        self.socket.sendall(b"".join(
            each if isinstance(each, bytes) else json.dumps(each).encode() + b"\n" for each in requests))

    def line(self) -> bytes:
        """The next line without its line feed; nothing at the end of the connection."""
        while b"\n" not in self._came:
            if not (more := self.socket.recv(65_536)):
                return b""
            self._came += more
        line, self._came = self._came.split(b"\n", 1)
        return line

    def reply(self) -> dict[str, Any]:
        """The next answer. Raises ConnectionError if there is none."""
        line = self.line()
        if not line:
            raise ConnectionError("the connection ended without an answer")
        answer: dict[str, Any] = json.loads(line)
        return answer

    def ask(self, **request: Any) -> dict[str, Any]:
        self.send(request)
        return self.reply()


def unread(client: Client) -> int:
    """How many bytes of what a client sent the proxy has not read."""
    return int(struct.unpack("i", fcntl.ioctl(client.socket, termios.TIOCOUTQ, bytes(4)))[0])


@needs_programs
class Case(unittest.TestCase):
    """A test with a folder, a server over a ring of so many nodes, and a proxy before it."""

    nodes = 4
    options: tuple[str, ...] = ()  # arguments of the proxy
    has_proxy = True  # whether one is started with the test
    parent: str | None = None  # of the folder, if others than this user have to reach it

    def setUp(self) -> None:
        temporary = tempfile.TemporaryDirectory(dir=self.parent)
        self.addCleanup(temporary.cleanup)
        self.folder = temporary.name
        self.server = Server(self.folder, self.topology(), self.environment_of_server())
        self.addCleanup(self.server.kill)
        if self.has_proxy:
            self.proxy = self.started(*self.options)

    def topology(self) -> str:
        return ring(self.nodes)

    def environment_of_server(self) -> dict[str, str]:
        """What the server's environment has besides that of the test."""
        return {}

    def started(self, *arguments: str, **how: Any) -> Proxy:
        """Starts a proxy before the server."""
        proxy = Proxy(self.folder, self.server.address, *arguments, **how)
        self.addCleanup(proxy.kill)
        return proxy

    def client(self) -> Client:
        client = self.proxy.connect()
        self.addCleanup(client.close)
        return client
