"""Wake-ups, which make a service look. It does not trust the content of a line: each only means that something may be new."""

from __future__ import annotations

import enum
import os
import time
from typing import Protocol

from .changes import Changes, wait_for


class Wake(enum.Enum):
    """The reason why a wait ended."""

    CAME = enum.auto()  # something may be new
    QUIET = enum.auto()  # the time has passed
    END = enum.auto()  # no more wake-ups will come


class Wakes(Protocol):
    """A source of wake-ups. A source with `descriptors` can be waited for together with others. `descriptors` returns the
    descriptors that become readable once something may be new since the last wait, or None if the source has to be polled."""

    def wait(self, seconds: float) -> Wake:
        """Waits until something may be new, at most this many seconds. Everything that arrives meanwhile is one wake-up."""


class Stream:
    """Lines, or parts of lines, that another program, such as `tail -F`, writes to a descriptor (0 is standard input)."""

    def __init__(self, descriptor: int = 0) -> None:
        self._descriptor = descriptor

    def wait(self, seconds: float) -> Wake:
        if not self._is_ready(max(seconds, 0.0)):
            return Wake.QUIET
        while self._is_ready(0.0):
            if not os.read(self._descriptor, 65536):
                return Wake.END
        return Wake.CAME

    def descriptors(self) -> list[int] | None:
        return [self._descriptor]

    def _is_ready(self, seconds: float) -> bool:
        return wait_for([self.descriptors()], seconds)


class Follower:
    """The file of signals, which is followed while it grows, is truncated or is replaced. It need not exist yet, and it may
    disappear."""

    def __init__(self, path: str) -> None:
        self._changes = Changes([path])

    def wait(self, seconds: float) -> Wake:
        return Wake.CAME if self._changes.wait(seconds) else Wake.QUIET

    def descriptors(self) -> list[int] | None:
        return self._changes.descriptors()


class Clock:
    """A source whose only wake-up is that the time has passed."""

    def wait(self, seconds: float) -> Wake:
        time.sleep(max(seconds, 0.0))
        return Wake.QUIET

    def descriptors(self) -> list[int] | None:
        return []
