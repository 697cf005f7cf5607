"""The history of a member: the digests of all parties with which its starts have first talked, in a file that only grows."""

from __future__ import annotations

import os
import re

from . import files
from .errors import Unreadable

LINES = re.compile(rb"(?:[0-9a-f]{64}\n)*")


class History:
    """A file with one digest of 64 hexadecimal digits on each line. An added digest counts, and is on the disk, after the next
    `keep`. The file is never truncated, because a store may be restored from any copy. If a power cut tore the last line, it
    belongs to a start that never talked; so it is skipped, and the next line overwrites it."""

    def __init__(self, path: str) -> None:
        """Raises Unreadable if the file can't be read."""
        self._path = path
        text = files.read_bytes(path) or b""
        self._size = text.rfind(b"\n") + 1  # the size of the complete lines
        if not LINES.fullmatch(text, 0, self._size):
            raise Unreadable(path, ": remove this file and the member's other files; the member then asks for a reset")
        self._digests = {bytes.fromhex(line.decode()) for line in text[:self._size].splitlines()}
        self._added: list[str] = []

    def __contains__(self, digest: object) -> bool:
        return isinstance(digest, str) and bytes.fromhex(digest) in self._digests

    def __len__(self) -> int:
        return len(self._digests)

    def sync(self) -> None:
        """Syncs the file after it was read: the process that wrote it may have been killed before it synced the file."""
        files.sync(self._path)

    def add(self, digest: str) -> None:
        """Adds a digest, which the next `keep` writes to the disk."""
        if digest not in self and digest not in self._added:
            self._added.append(digest)

    def keep(self) -> None:
        """Writes all added digests to the disk. After an error, call it again: it writes all of them again."""
        if not self._added:
            return
        text = "".join(f"{digest}\n" for digest in self._added).encode()
        files.append(self._path, self._size, text)
        self._size += len(text)
        self._digests |= {bytes.fromhex(digest) for digest in self._added}
        self._added = []
