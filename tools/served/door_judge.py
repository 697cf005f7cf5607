"""Checks that the members of a door keep their rule, by its outcome: no two starts of one member talk in one run, a member talks only
with the work of the epoch that it has begun, and all talk again in the end.

`tools/try_member` compares each look of one member with the rule, because it answers each look itself. Here 64 members look at
the proxy, and are killed between any two calls, so only their files show what they do.
"""

import contextlib
import json
import os
import threading
import time
from typing import NamedTuple

from .door import NODES, Failed, Members, until

CHECK_SECONDS = 0.1


class Start(NamedTuple):
    """A start of a member: the epoch that was begun, and a name that no other start of that member has."""

    epoch: str
    name: tuple[int, int]


class Talk(NamedTuple):
    """A start of a member that talks. The run is the first half of its tag."""

    node: int
    run: str
    start: Start


def start_of(folder: str) -> Start | None:
    """Returns the start that a member has now, by its files: a member in Go counts its starts, and the others write a new file
    at each. None if it has begun nothing."""
    with contextlib.suppress(FileNotFoundError), open(f"{folder}/kept", encoding="utf-8") as file:
        kept = json.load(file)
        return Start(kept["Begun"], (kept["Starts"], 0)) if kept["Begun"] else None
    with contextlib.suppress(FileNotFoundError), open(f"{folder}/work", encoding="ascii") as file:
        found = os.stat(file.fileno())
        return Start(file.read().strip(), (found.st_ino, found.st_mtime_ns))
    return None


def talk_of(node: int, folder: str) -> Talk | None:
    """Returns the start with which a member talks now, or None if it does not talk, or is just beginning."""
    before = start_of(folder)
    try:
        with open(f"{folder}/run", encoding="ascii") as file:
            fields = file.read().split()
        after = start_of(folder)
        is_there = os.path.exists(f"{folder}/run")
    except FileNotFoundError:
        return None
    if before is None or not is_there or before != after or len(fields) != 2:
        return None
    if fields[0] != before.epoch:
        raise Failed(f"member {node} talks at epoch {fields[0]}, but its work is of epoch {before.epoch}")
    return Talk(node, fields[1].partition("-")[0], before)


class Judge(threading.Thread):
    """Checks all members repeatedly."""

    def __init__(self, members: Members) -> None:
        super().__init__(daemon=True)
        self._members, self._starts = members, dict[tuple[int, str], Start]()
        self._is_over, self.mixed = threading.Event(), list[str]()
        self.checks, self.talks = 0, 0

    def run(self) -> None:
        while not self._is_over.wait(CHECK_SECONDS):
            try:
                self.check()
            except Failed as failed:
                self.mixed.append(str(failed))

    def check(self) -> set[str]:
        """Returns the runs in which members talk now. They include the empty one if a member does not talk."""
        talks = [talk_of(node, self._members.folder(node)) for node in NODES]
        for talk in filter(None, talks):
            start = self._starts.setdefault((talk.node, talk.run), talk.start)
            if start != talk.start:
                self.mixed.append(f"two starts of member {talk.node} talk in run {talk.run}")
        self.checks += 1
        self.talks += sum(talk is not None for talk in talks)
        return {talk.run if talk else "" for talk in talks}

    def runs(self) -> int:
        """Returns the number of runs in which members have talked."""
        return len({run for _, run in list(self._starts)})

    def expect_talk(self, seconds: float) -> float:
        """Waits until all members talk in one run, and returns how long that took. Raises Failed if it takes too long."""
        began = time.monotonic()

        def holds() -> bool:
            self._members.expect_running()
            found = self.check()
            return len(found) == 1 and "" not in found
        until("all members talk in one run", holds, seconds)
        return time.monotonic() - began

    def end(self) -> None:
        self._is_over.set()
        self.join()
