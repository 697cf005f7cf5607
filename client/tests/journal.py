"""A file that is written as docs/FORMATS.md says, and read meanwhile in every way that a kernel permits: only reads and writes
of one byte are atomic."""

from __future__ import annotations

import random

HEADER = 17
SELECTOR = 0


class Journal:
    """The history of a store. `states` are the bytes of the file at each moment, and `contents` what the selected half holds then:
    its index, its snapshot, and its bodies."""

    def __init__(self, choice: random.Random, size: int, appends: int) -> None:
        self.choice, self.size = choice, size
        self.index, self.count = 0, choice.choice([1, 250, 65_530])
        self.snapshot, self.bodies = self._snapshot(), list[bytes]()
        self.checkpoints = list[int]()  # the states during a checkpoint and around it
        self.states = [b"\0" + b"ACRRESET" + size.to_bytes(8, "big") + self._top() + b"\0"]
        self.contents = [self._content()]
        self.gate = len(self.states[0]) - 1
        for _ in range(appends):
            self._append(choice.randbytes(choice.randint(1, 6)))

    def _snapshot(self) -> bytes:
        return self.count.to_bytes(8, "big") + self.choice.randbytes(self.choice.randint(0, 3))

    def _top(self) -> bytes:
        return b"\2" + len(self.snapshot).to_bytes(4, "big") + self.snapshot

    def _content(self) -> tuple[int, bytes, tuple[bytes, ...]]:
        return self.index, self.snapshot, tuple(self.bodies)

    def _append(self, body: bytes) -> None:
        written = len(body).to_bytes(4, "big") + body + b"\0"
        if self.gate + 1 + len(written) > HEADER + (self.index + 1) * self.size:
            self._checkpoint()
        self._write(self.gate + 1, written)
        self.count += 1
        self.bodies.append(body)
        self._write(self.gate, b"\1")
        self.gate += len(written)

    def _checkpoint(self) -> None:
        before, self.snapshot = self.snapshot, self._snapshot()
        new = self._top() + b"\0"
        begun = len(self.states)
        self._write(HEADER + (1 - self.index) * self.size, new, with_snapshot=before)
        self.index, self.bodies = 1 - self.index, []
        self.gate = HEADER + self.index * self.size + len(new) - 1
        self._write(SELECTOR, bytes([self.index]))
        self.checkpoints += range(begun - 1, len(self.states) + 2)

    def _write(self, place: int, data: bytes, with_snapshot: bytes | None = None) -> None:
        """Writes data whose bytes become visible in up to three parts: from its start, from its end, in any order, or with the
        last byte after all others."""
        now = self._content() if with_snapshot is None else (self.index, with_snapshot, tuple(self.bodies))
        file = bytearray(self.states[-1].ljust(place, b"\0"))
        parts = [self.choice.randrange(3) for _ in data]
        if (way := self.choice.randrange(4)) < 2:
            parts.sort(reverse=way == 1)
        elif way == 2:
            parts = [0] * (len(data) - 1) + [1]
        for part in sorted(set(parts)):
            for each, value in enumerate(data):
                if parts[each] == part:
                    file = file.ljust(place + each + 1, b"\0")
                    file[place + each] = value
            self.states.append(bytes(file))
            self.contents.append(now)


class Reading:
    """Reads a journal while it is written: `now` is its state. The writing continues between two calls, and also during a call:
    then each byte that the call returns is from any state in between. It continues steadily, or only at a few calls, and
    then prefers states during a checkpoint; with at most the given number of changes of the selector."""

    def __init__(self, journal: Journal, choice: random.Random, start: int, most_selectors: int) -> None:
        self.journal, self.choice, self.now, self.left = journal, choice, start, most_selectors
        self.hurry = choice.choice([0.1, 0.4, 0.7, 0.9, 0.97])
        near = [state for state in journal.checkpoints if state > start][:18]
        leaps = choice.randrange(4) if len(near) > 3 else 0
        self.leaps = dict(zip(sorted(choice.sample(range(12), leaps)), sorted(choice.sample(near, leaps))))
        self.turns = 0

    def __call__(self, place: int, length: int) -> bytes:
        self._go_on()
        begun = self.now
        self._go_on()
        moments = self.journal.states[begun:self.now + 1]
        end = min(place + length, max(map(len, moments)))
        if len(moments) == 1:
            return moments[0][place:end]
        cut, way = self.choice.randint(place, max(end, place)), self.choice.choice(["mixed", "new first", "old first"])
        return bytes(self._byte(moments, each, cut, way) for each in range(place, end))

    def _byte(self, moments: list[bytes], place: int, cut: int, way: str) -> int:
        moment = self.choice.choice(moments) if way == "mixed" else moments[-1 if (place < cut) == (way == "new first") else 0]
        return moment[place] if place < len(moment) else 0

    def _go_on(self) -> None:
        target = self.leaps.get(self.turns, self.now) if self.leaps else self.now + self._steadily()
        self.turns += 1
        while self.now < min(target, len(self.journal.states) - 1):
            if self.journal.states[self.now + 1][SELECTOR] != self.journal.states[self.now][SELECTOR]:
                if not self.left:
                    return
                self.left -= 1
            self.now += 1

    def _steadily(self) -> int:
        steps = 0
        while self.choice.random() < self.hurry and steps < 100:
            steps += 1
        return steps
