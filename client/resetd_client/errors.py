"""The exceptions of the library. Each is a `ResetdError`, and `needs_person` says whether it needs a person.

`needs_person` is False if the program itself can continue: after `Away` and `Restless` it makes the same call again, and
after `OutOfRun` it closes the connection of the message. It is True if the same call would fail in the same way until a person, for example
the program's author, has changed something.

The library also raises the OSError of a file or a folder that can't be used.
"""

from __future__ import annotations

import sys
from typing import ClassVar


class ResetdError(Exception):
    """The base of all exceptions of the library."""

    needs_person: ClassVar[bool] = True


class BadWords(ResetdError, ValueError):
    """An argument is invalid, for example an address, or a number out of its range. Nothing was sent. Needs a person: the
    author of the calling program."""


class Unreadable(ResetdError, ValueError):
    """A file that the library keeps, or that configures it, can't be read. Needs a person: the message says what to do. `path`
    is the file."""

    def __init__(self, path: str, what_to_do: str) -> None:
        super().__init__(f"{path} can't be read{what_to_do}")
        self.path = path


class Untrusted(ResetdError):
    """One end of a TLS connection does not accept the other end's certificate, or a certificate is missing. Needs a person:
    whoever issues the certificates."""


class InLoop(ResetdError, RuntimeError):
    """The call would block the event loop that runs in this thread; `resetd_client.aio` has calls that do not. Needs a person:
    the program's author."""


def refuse_in_loop(what: str) -> None:
    """Raises InLoop if an event loop of asyncio runs in this thread."""
    asyncio = sys.modules.get("asyncio")  # a loop can run only if asyncio was imported
    if asyncio is not None and asyncio._get_running_loop() is not None:
        raise InLoop(f"{what} would block the event loop that runs in this thread: use resetd_client.aio")
