"""A server over a store, and the connections to it."""

import contextlib
import json
import os
import socket
import subprocess
import time
from collections.abc import Callable, Mapping, Sequence
from typing import Any, Self

from .case import until
from .program import TIMEOUT, PROGRAM, SHORT, Ended


# A value sent over a connection: a line that is parsed as JSON, and a value that is written as JSON, or text sent unchanged.
Answer = dict[str, Any]
Request = Answer | bytes


class Connection:
    """A client's connection."""

    def __init__(self, address: str, buffer: int | None = None) -> None:
        host, port = address.rsplit(":", 1)
        self.socket = socket.socket()
        if buffer:
            self.socket.setsockopt(socket.SOL_SOCKET, socket.SO_RCVBUF, buffer)
        self.socket.settimeout(TIMEOUT)
        self.socket.connect((host, int(port)))
        self.came = b""

    def send(self, *requests: Request) -> None:
        self.socket.sendall(b"".join(map(spelled, requests)))

    def line(self) -> bytes:
        """Returns the next line, unchanged, or an empty text if the server has ended the connection."""
        while b"\n" not in self.came:
            if not (more := self.socket.recv(65_536)):
                return b""
            self.came += more
        line, self.came = self.came.split(b"\n", 1)
        return line + b"\n"

    def reply(self) -> Answer:
        answer: Answer = json.loads(self.line())
        return answer

    def rest(self) -> list[bytes]:
        """Returns all lines up to the end of the connection. Raises ConnectionResetError if the connection was reset."""
        lines = []
        while line := self.line():
            lines.append(line)
        return lines

    def __enter__(self) -> Self:
        return self

    def __exit__(self, *_: object) -> None:
        self.socket.close()


def spelled(request: Request) -> bytes:
    return request if isinstance(request, bytes) else json.dumps(request).encode() + b"\n"


def processor_seconds(process: int) -> float:
    """Returns the processor seconds that a process has used."""
    with open(f"/proc/{process}/stat", encoding="ascii") as file:
        fields = file.read().rsplit(")", 1)[1].split()
    return (int(fields[11]) + int(fields[12])) / os.sysconf("SC_CLK_TCK")


def sleeps(process: int) -> bool:
    """Returns whether each thread of a process sleeps. A thread that waits for a processor does not. False if the process has
    ended."""
    folder, states = f"/proc/{process}/task", set[str]()
    with contextlib.suppress(FileNotFoundError, ProcessLookupError):
        for thread in os.listdir(folder):
            with open(f"{folder}/{thread}/stat", encoding="ascii") as file:
                states.add(file.read().rsplit(")", 1)[1].split()[0])
        return states == {"S"}
    return False


def turns(process: int) -> int:
    """Returns how often the threads of a process have gone to sleep, or have lost the processor."""
    threads, count = f"/proc/{process}/task", 0
    for thread in os.listdir(threads):
        with open(f"{threads}/{thread}/status", encoding="ascii") as rows:
            count += sum(int(row.split()[1]) for row in rows if "voluntary_ctxt_switches" in row)
    return count


def rests(process: int) -> bool:
    """Returns whether, for a second, no thread has woken from a sleep, as one that polls would, and none has used, lost or waited
    for the processor, as one that spins would."""
    before = turns(process), processor_seconds(process)
    time.sleep(1)
    return sleeps(process) and (turns(process), processor_seconds(process)) == before


class Serving:
    """`resetd serve` over a store, with its output in a file. It is killed at the end of the test, unless it has ended. A
    program with short instances may end a connection before it answers a line, because its workers make an instance old too;
    a request on its own connection is then sent again."""

    def __init__(self, store: str, program: str | None = None, address: str = "127.0.0.1:0",
                 env: Mapping[str, str] | None = None, before: Sequence[str] = (), output: str | None = None,
                 stdout: int | None = None, cwd: str | None = None, preexec_fn: Callable[[], object] | None = None,
                 restore_signals: bool = True) -> None:
        self.store, self.output, self.errors = store, f"{output or store}.signals", f"{output or store}.errors"
        self.has_short_instances = bool(SHORT) and program == SHORT
        with open(self.output, "ab") as printed, open(self.errors, "wb") as errors:
            self.begin = printed.tell()
            self.process = subprocess.Popen(
                [*before, program or PROGRAM, "serve", store, address], stdin=subprocess.DEVNULL,
                stdout=printed if stdout is None else stdout, stderr=errors, env={**os.environ, **(env or {})}, cwd=cwd,
                preexec_fn=preexec_fn, restore_signals=restore_signals)

    def __enter__(self) -> Self:
        try:
            self.address = until("a first line", self.first_line).removeprefix("listening ")
        except BaseException:
            self.kill()
            raise
        return self

    def __exit__(self, *_: object) -> None:
        self.kill()

    def first_line(self) -> str | None:
        if not (lines := self.lines()) and self.process.poll() is not None:
            raise AssertionError(f"the server ended before its first line: {self.ended()}")
        return lines[0] if lines else None

    def await_rest(self) -> bool:
        """Waits until all threads sleep. Returns False if the process has ended."""
        until("the server rests", lambda: self.process.poll() is not None or sleeps(self.process.pid))
        return self.process.poll() is None

    def lines(self) -> list[str]:
        """Returns the complete lines that the server has printed."""
        with open(self.output, "rb") as file:
            file.seek(self.begin)
            return file.read().decode().split("\n")[:-1]

    def signals(self) -> list[tuple[int, int]]:
        """Returns the node and the epoch of each printed signal."""
        rows = [line.split() for line in self.lines() if line.startswith("signal ")]
        return [(int(node), int(epoch)) for _, node, epoch in rows]

    def await_signals(self, count: int) -> list[tuple[int, int]]:
        """Waits until at least this many signals are printed, and returns them."""
        return until(f"signal {count}", lambda: len(found := self.signals()) >= count and found)

    def connect(self, buffer: int | None = None) -> Connection:
        return Connection(self.address, buffer)

    def ask(self, request: Request) -> Answer:
        """Returns the answer to one request, over a new connection."""
        return until("an answer", lambda: self.answer_in_instance(request)) if self.has_short_instances else self.answer(request)

    def answer(self, request: Request) -> Answer:
        with self.connect() as connection:
            connection.send(request)
            return connection.reply()

    def answer_in_instance(self, request: Request) -> Answer | None:
        """Returns the answer over one connection, or None if the end of an instance has ended that connection without an
        answer."""
        try:
            with self.connect() as connection:
                connection.send(request)
                line = connection.line()
        except ConnectionError:
            if self.process.poll() is not None:
                raise
            return None
        answer: Answer | None = json.loads(line) if line else None
        return answer

    def order(self, number: int, op: str, client: int = 1, **members: int) -> Answer:
        return self.ask({"op": op, "client": client, "number": number, **members})

    def show(self) -> Answer:
        return self.ask({"op": "show"})

    def await_quiet(self, epoch: int | None = None) -> None:
        """Waits until each node is ready, in this epoch if one is given, with nothing in transit."""
        def quiet() -> bool:
            rows = self.show()["nodes"]
            return all(row[2] == "ready" and row[4] == (row[4] if epoch is None else epoch) for row in rows) and \
                self.ask({"op": "resend"}) == {"count": 0, "kind": "resent"}
        until(f"the end of a reset, epoch {epoch}", quiet)

    def close(self) -> Ended:
        """Closes the server in order, and returns how it ended."""
        answer = self.ask({"op": "close"})
        if answer != {"kind": "closed"}:
            raise AssertionError(f"a close was answered {answer}")
        return self.ended()

    def ended(self, seconds: float = TIMEOUT) -> Ended:
        """Waits for the end of the process. Returns its status, its output, and its fault."""
        status = self.process.wait(timeout=seconds)
        with open(self.errors, encoding="utf-8") as errors:
            return Ended(status, "".join(f"{line}\n" for line in self.lines()), errors.read())

    def kill(self) -> None:
        if self.process.poll() is None:
            self.process.kill()
        self.process.wait()
