"""A coordinator over a file: a process that can be killed and started again."""

import json
import os
import signal
import subprocess
import sys
import time

sys.path.insert(0, os.path.join(os.path.dirname(os.path.abspath(__file__)), "..", "..", "client"))
from resetd_client import Away, Port  # noqa: E402

from .clients import Json, Lost  # noqa: E402

__all__ = ["TIMEOUT", "Away", "Server", "ask"]

TIMEOUT = 300  # seconds within which a server answers and ends, even on a busy machine


def ask(address: str, request: Json, seconds: float) -> Json:
    """Sends one request, and returns its answer, whatever it is. Raises Away if no answer came."""
    try:
        answer: Json = json.loads(Port(address, seconds).raw(request))
    except ValueError as fault:
        raise Away(str(fault)) from fault
    return answer


class Server:
    """`resetd serve` over a store. All its starts append their lines to one file, like those of a service manager."""

    def __init__(self, program: str, store: str, address: str = "127.0.0.1:0") -> None:
        self.program, self.store, self.wanted = program, store, address
        self.address = ""  # at which it listens, while it does
        self.signals, self.errors = f"{store}.signals", f"{store}.errors"
        self.size_before, self.size_read = 0, 0
        self._process: subprocess.Popen[bytes] | None = None

    @property
    def process(self) -> subprocess.Popen[bytes]:
        """The process that was started last."""
        if self._process is None:
            raise Lost("the coordinator was never started")
        return self._process

    @process.setter
    def process(self, process: subprocess.Popen[bytes]) -> None:
        self._process = process

    def command(self, name: str, *arguments: str) -> tuple[int, list[str]]:
        """Runs another command of the program on the store. Returns its status, and the lines that it printed, faults last."""
        done = subprocess.run([self.program, name, self.store, *arguments], capture_output=True, encoding="utf-8")
        return done.returncode, (done.stdout + done.stderr).splitlines()

    def found(self, topology: str) -> tuple[int, list[str]]:
        """Creates the store with the nodes and links of a topology, and returns the output."""
        with open(f"{self.store}.toml", "w", encoding="utf-8") as file:
            file.write(topology)
        return self.command("init", f"{self.store}.toml")

    def start(self, *before: str) -> bool:
        """Starts the server, and returns whether it came to listen."""
        self.launch(*before)
        return self.listen()

    def launch(self, *before: str) -> None:
        """Starts the process, after a prefix of arguments if there is one."""
        self.address = ""
        with open(self.signals, "ab") as signals, open(self.errors, "wb") as errors:
            self.size_before = signals.tell()
            self.process = subprocess.Popen([*before, self.program, "serve", self.store, self.wanted],
                                            stdin=subprocess.DEVNULL, stdout=signals, stderr=errors)

    def listen(self) -> bool:
        """Waits until the process listens or has ended. Returns whether it listens."""
        while not self.address:
            is_over = self.process.poll() is not None
            for line in self.lines_from(self.size_before)[0]:
                if line.startswith("listening "):
                    self.address = line.split()[1]
            if is_over:
                break
            time.sleep(0.001)
        return bool(self.address)

    def ask(self, request: Json) -> Json:
        """Returns the answer to a request. The request is sent again while the process runs, because an instance that ends may
        end a connection without an answer. Raises Away once the process has ended."""
        if not self.address:
            raise Away("it does not listen")
        until = time.monotonic() + TIMEOUT
        while True:
            try:
                return ask(self.address, request, TIMEOUT)
            except Away:
                if self.process.poll() is not None or time.monotonic() > until:
                    raise
            time.sleep(0.005)

    def kill(self) -> None:
        """Kills the server by signal 9, also if it runs below a process that watches it."""
        below = subprocess.run(["ps", "-o", "pid=", "--ppid", str(self.process.pid)], capture_output=True, check=False)
        for process in [self.process.pid, *map(int, below.stdout.split())]:
            os.kill(process, signal.SIGKILL)
        self.process.wait()

    def end(self) -> None:
        """Kills the server if it still runs."""
        if self._process and self._process.poll() is None:
            self.kill()

    def close(self) -> tuple[int, str]:
        """Ends the server in order. Returns its exit status and its faults."""
        try:
            self.ask({"op": "close"})
        except Away:
            pass
        return self.ended()

    def must_start(self) -> None:
        if not self.start():
            raise Lost(f"the coordinator did not start: {self.ended()}")

    def must_close(self) -> None:
        ended = self.close()
        if ended != (0, ""):
            raise Lost(f"closed in order, the coordinator ended with {ended}")

    def ended(self) -> tuple[int, str]:
        """Waits for the end of the process. Returns its exit status and its faults."""
        status = self.process.wait(timeout=TIMEOUT)
        with open(self.errors, encoding="utf-8") as errors:
            return status, errors.read()

    def new_signals(self) -> list[tuple[int, int]]:
        """Returns the node and the epoch of each signal printed since the last call."""
        lines, self.size_read = self.lines_from(self.size_read)
        rows = [line.split() for line in lines if line.startswith("signal ")]
        return [(int(node), int(epoch)) for _, node, epoch in rows]

    def lines_from(self, place: int) -> tuple[list[str], int]:
        """Returns the complete lines after a position in the file of signals, and the position after them."""
        with open(self.signals, "rb") as file:
            file.seek(place)
            text = file.read()
        text = text[:text.rfind(b"\n") + 1]
        return text.decode().splitlines(), place + len(text)
