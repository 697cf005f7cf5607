"""A server whose output is a pipe with little room."""

import fcntl
import os
from collections.abc import Mapping

from .serving import Serving


class Piped(Serving):
    """A server whose output is a pipe of one page. Only its first line is read."""

    def __init__(self, store: str, program: str | None = None, env: Mapping[str, str] | None = None) -> None:
        self.reader: int | None
        self.reader, writer = os.pipe()
        fcntl.fcntl(writer, fcntl.F_SETPIPE_SZ, 4_096)
        self.printed = b""
        super().__init__(store, program, env=env, stdout=writer)
        os.close(writer)

    def __exit__(self, *_: object) -> None:
        super().__exit__()
        self.leave()

    def first_line(self) -> str:
        """Reads the first line byte by byte, so that nothing after it is taken from the pipe."""
        assert self.reader is not None
        while not self.printed.endswith(b"\n"):
            if not (byte := os.read(self.reader, 1)):
                raise AssertionError(f"the server ended before its first line: {self.process.wait()}")
            self.printed += byte
        return self.printed.decode().rstrip("\n")

    def read_on(self) -> None:
        assert self.reader is not None
        while more := os.read(self.reader, 65_536):
            self.printed += more

    def leave(self) -> None:
        """Closes the reading end."""
        if self.reader is not None:
            os.close(self.reader)
        self.reader = None

    def lines(self) -> list[str]:
        return self.printed.decode().split("\n")[:-1]
