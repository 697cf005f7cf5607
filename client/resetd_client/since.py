"""Records since when the conditions have lasted that a monitoring check sees from time to time."""

from __future__ import annotations

import json
import time
from typing import NamedTuple

from . import files


class Seen(NamedTuple):
    """When a condition was first seen: the time by the boot clock, and the number of steps."""

    when: float
    steps: int


class Since:
    """Since when each observed condition has lasted, stored in a file between checks. Times are valid within one boot of the
    machine, by a clock that nobody can set."""

    def __init__(self, path: str, now: float, boot: str = "") -> None:
        self._path, self._now, self._boot = path, now, boot
        self._old = self._read()
        self._new: dict[str, Seen] = {}

    def seconds(self, thing: str) -> float:
        """Returns for how many seconds this condition has been seen; 0 if it is new."""
        return self._now - self._seen(thing).when

    def grown(self, thing: str, steps: int) -> int:
        """Returns by how many steps the store has grown since this condition was first seen."""
        return max(steps - self._seen(thing, steps).steps, 0)

    def things(self, kind: str) -> list[str]:
        """Returns the conditions of a kind that the previous check saw. The first word of a condition is its kind."""
        return [thing for thing in self._old if thing.startswith(f"{kind} ")]

    def keep(self) -> None:
        """Stores the conditions that were seen this time, and drops all others."""
        if self._new != self._old:
            files.keep(self._path, json.dumps({"boot": self._boot, "seen": self._new}))

    def _seen(self, thing: str, steps: int = 0) -> Seen:
        if thing not in self._new:
            old = self._old.get(thing, Seen(self._now, steps))
            self._new[thing] = Seen(min(old.when, self._now), old.steps)
        return self._new[thing]

    def _read(self) -> dict[str, Seen]:
        try:
            kept = json.loads(files.read(self._path) or "{}")
            seen = {str(thing): Seen(float(when), int(steps)) for thing, (when, steps) in kept["seen"].items()}
            return seen if kept["boot"] == self._boot else {}
        except (ValueError, KeyError, TypeError, AttributeError):
            return {}


def boot_clock() -> float:
    """Returns the seconds since the machine started, including the time that it slept. Nobody can set this clock."""
    return time.clock_gettime(time.CLOCK_BOOTTIME)


def boot_name() -> str:
    """Returns the identity of the machine's boot, or an empty text if it is unknown."""
    try:
        return (files.read("/proc/sys/kernel/random/boot_id") or "").strip()
    except OSError:
        return ""
