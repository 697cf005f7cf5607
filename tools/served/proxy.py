"""`resetd-proxy` before a coordinator: a process that can be killed and started again."""

import json
import os
import socket
import subprocess
import time
from typing import Any

from .clients import Lost
from .server import Away

ROOT = os.path.dirname(os.path.dirname(os.path.dirname(os.path.abspath(__file__))))
PROGRAM = os.environ.get("RESETD_PROXY", f"{ROOT}/bin/resetd-proxy")
SECONDS = 300.0  # within which it listens and answers, even on a busy machine

POLICY = """[[allow]]
principals = ["all"]
ops = ["show", "watch", "reset", "confirm", "add", "remove", "join", "drop", "resend", "close"]
"""


class Proxy:
    """`resetd-proxy serve` with one socket, where a client may do everything. All its starts use the same files of a folder."""

    def __init__(self, folder: str, server: str, *arguments: str, program: str = PROGRAM) -> None:
        """`server` is the address of the server; `arguments` are further ones of its command line."""
        self.socket, self.audit, self.said = f"{folder}/proxy.socket", f"{folder}/proxy.audit", f"{folder}/proxy.said"
        policy = f"{folder}/proxy.toml"
        with open(policy, "w", encoding="utf-8") as file:
            file.write(POLICY)
        self._command = [program, "serve", "--server", server, "--policy", policy, "--listen", f"all={self.socket}", "--audit", self.audit,
                         *arguments]
        self.process: subprocess.Popen[bytes]
        self.start()

    @property
    def address(self) -> str:
        """The address of its socket, in the form that the client library takes."""
        return f"unix:{self.socket}"

    def start(self) -> None:
        """Starts it. Raises Lost if it does not come to listen."""
        with open(self.said, "ab") as said:
            begin = said.tell()
            self.process = subprocess.Popen(self._command, stdin=subprocess.DEVNULL, stdout=said, stderr=said)
        end = time.monotonic() + SECONDS
        while "listening all" not in (text := read_from(self.said, begin)):
            if self.process.poll() is not None or time.monotonic() > end:
                raise Lost(f"the proxy does not listen: {text}")
            time.sleep(0.01)

    def kill(self) -> None:
        self.process.kill()
        self.process.wait()

    def ask(self, **request: Any) -> dict[str, Any]:
        """Returns the answer to a line over a new connection. Raises Away if no answer came."""
        try:
            with socket.socket(socket.AF_UNIX) as connection:
                connection.settimeout(SECONDS)
                connection.connect(self.socket)
                connection.sendall(json.dumps(request).encode() + b"\n")
                with connection.makefile("rb") as lines:
                    answer: dict[str, Any] = json.loads(lines.readline())
                    return answer
        except (OSError, ValueError) as fault:
            raise Away(str(fault)) from fault


def read_from(path: str, place: int) -> str:
    with open(path, "rb") as file:
        file.seek(place)
        return file.read().decode()
