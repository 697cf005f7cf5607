"""A bell: lets another thread, or a signal handler, wake a thread that waits with `select`."""

from __future__ import annotations

import os
import weakref
from contextlib import suppress


class Bell:
    """Rings until it is silenced. Its descriptor is readable while it rings."""

    def __init__(self) -> None:
        self._reader, self._writer = os.pipe()
        for descriptor in (self._reader, self._writer):
            os.set_blocking(descriptor, False)
            weakref.finalize(self, os.close, descriptor)

    def fileno(self) -> int:
        return self._reader

    def ring(self) -> None:
        with suppress(BlockingIOError):  # it is already ringing
            os.write(self._writer, b"x")

    def hush(self) -> None:
        with suppress(BlockingIOError):
            while os.read(self._reader, 4096):
                pass
