"""The last orders, from an audit file."""

from __future__ import annotations

import os
from typing import Any

from resetd_client.control.audit import entry_of

MOST_ORDERS = 20
MOST_BYTES = 32_768  # that are read from the file's end
EVENTS = ("answered", "denied")


class Recent:
    """The last orders of an audit file, which is read again after it has changed."""

    def __init__(self, path: str) -> None:
        self._path = path
        self._seen: tuple[int, int] | None = None
        self._orders: list[dict[str, Any]] = []

    def orders(self) -> list[dict[str, Any]]:
        """Returns the last orders and denials, the newest first. If the file can't be read, those that were read last."""
        try:
            with open(self._path, "rb") as file:
                found = os.stat(file.fileno())
                if (found.st_ino, found.st_size) != self._seen:
                    self._orders = orders_of(file.read() if found.st_size <= MOST_BYTES else tail_of(file, found.st_size))
                    self._seen = found.st_ino, found.st_size
        except OSError:
            pass
        return self._orders


def tail_of(file: Any, length: int) -> bytes:
    """Returns the whole lines among the last bytes of a file."""
    file.seek(length - MOST_BYTES)
    return bytes(file.read().partition(b"\n")[2])


def orders_of(text: bytes) -> list[dict[str, Any]]:
    entries = (entry_of(line) for line in text.decode("utf-8", "replace").splitlines())
    return [dict(entry) for entry in entries if entry and entry["event"] in EVENTS][:-MOST_ORDERS - 1:-1]
