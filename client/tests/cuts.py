"""A member on a disk in memory, killed and cut off at each point, and shown anything: does a start of it ever talk in two runs,
or two starts of it in one?

The member is the library's own. Its files are on a disk in memory: a text that was not synced is, after a power cut, an earlier
one, the new one, a part of it or nothing; after a kill it is there. A process ends (by a kill or a power cut) before any write,
between a write and its sync, in `begin`, before and after each order, and between two looks. Any views are shown: epochs that
come again, parties that come again, manual confirms. The judge is that of the theorem about members (NoMix in
crates/coord_member), for one member.

usage: cuts.py [COUNT] [--without PART]      COUNT scenarios of each kind of work (20,000); PART is one of PARTS, which is left out
"""

from __future__ import annotations

import itertools
import json
import os
import random
import re
import sys
from collections.abc import Callable, Iterator, Mapping, Sequence
from contextlib import ExitStack, contextmanager, suppress
from typing import Any, cast
from unittest import mock

if __name__ == "__main__":
    sys.path.insert(0, os.path.join(os.path.dirname(os.path.abspath(__file__)), ".."))
from resetd_client import Member, Port, View, Work
from resetd_client.answers import Away, Outcome, Reply
from resetd_client.at_front import AtFront
from resetd_client.member import Run
from resetd_client.start_file import Row, read_rows
from resetd_client.starts import Shelf

# What can be left out, to see that it is needed.
PARTS = {
    "history": "the history is not synced before the start talks",
    "first": "the party is written down before its digest is in the history",
    "drop": "\"nothing begun\" is not synced before work that is replaced in parts",
    "again": "it is not synced where an epoch comes again that the file may have as begun",
    "torn": "a torn file of starts is read as far as it goes",
    "start": "at a start nothing is synced that the process before may have been killed in front of",
    "boot": "that an epoch is begun counts after a power cut too",
    "earlier": "a file of an earlier version, which says that an epoch is begun, is not replaced before the start talks",
}
START, HISTORY = "/disk/start-1.json", "/disk/start-1.history"
MOST_PROCESSES = 5  # of a member, one after another, in a scenario

Start = tuple[int, int] | None  # the epoch stored with the work, and the number of the begin that made it


class End(BaseException):
    """Raised where the process ends."""


class Disk:
    """The present bytes of each file, and the bytes that a power cut may leave. `left` is the number of steps that the process
    makes before it is killed."""

    def __init__(self, rng: random.Random, without: str) -> None:
        self.rng, self.without = rng, without
        self.cache: dict[str, str | None] = {}
        self.maybe: dict[str, list[str | None]] = {}
        self.boot, self.left = 1, 0

    def step(self) -> None:
        self.left -= 1
        if self.left < 0:
            raise End

    def write(self, path: str, text: str, torn: Sequence[str] = ()) -> None:
        self.step()
        self.maybe.setdefault(path, [self.cache.get(path)])
        self.cache[path] = text
        self.maybe[path] += [text, *torn]

    def sync(self, path: str) -> None:
        self.step()
        self.maybe[path] = [self.cache.get(path)]

    def cut(self) -> None:
        """Cuts the power, and restores it."""
        self.boot += 1
        for path, texts in self.maybe.items():
            self.cache[path] = self.rng.choice(texts)
            self.maybe[path] = [self.cache[path]]

    # the counterparts of resetd_client/files.py

    def keep(self, path: str, text: str) -> None:
        self.write(path, text)
        self.sync(path)

    def put(self, path: str, text: str) -> None:
        self.write(path, text, [text[:len(text) // 2], text[:-1], ""])

    def empty(self, path: str) -> None:
        if self.cache.get(path) is not None:
            self.keep(path, "")

    def sync_at_start(self, path: str) -> None:
        if self.without != "start":
            self.sync(path)

    def append(self, path: str, size: int, text: bytes) -> None:
        old = (self.cache.get(path) or "").encode()[:size].decode()
        self.write(path, old + text.decode(), [old + text.decode()[:30], old])
        if self.without != "history":
            self.sync(path)

    def read(self, path: str) -> str | None:
        return self.cache.get(path)

    def read_bytes(self, path: str) -> bytes | None:
        text = self.cache.get(path)
        return None if text is None else text.encode()


def read_torn(path: str, text: str | None, boot: str) -> dict[int, Row]:
    """Reads a torn text as far as it can be read."""
    try:
        json.loads(text or "{}")
        return read_rows(path, f"{text}\n" if text else text, boot)
    except ValueError:
        found, lines = re.search(r'"begun": (\d+)', text or ""), re.findall(r'"(\d+ \d+(?: \d+)?)"', text or "")
        row = {"1": {"begun": int(found[1]), "party": lines or None}} if found else {}
        return read_rows(path, json.dumps(row) + "\n", boot)


class Now:
    """The disk that has the library's files at present."""

    disk: Disk


CALLS = {"keep": Disk.keep, "put": Disk.put, "overwrite": Disk.put, "empty": Disk.empty, "append": Disk.append, "sync": Disk.sync_at_start,
         "read": Disk.read, "read_bytes": Disk.read_bytes}


@contextmanager
def in_memory(without: str) -> Iterator[None]:
    """Redirects the library's files to the disk of the present scenario."""
    def of_now(call: Any) -> Any:
        return lambda *arguments: call(Now.disk, *arguments)
    with ExitStack() as stack:
        for name, call in CALLS.items():
            stack.enter_context(mock.patch(f"resetd_client.files.{name}", of_now(call)))
        stack.enter_context(mock.patch("resetd_client.starts.boot_name", lambda: "one" if without == "boot" else str(Now.disk.boot)))
        stack.enter_context(mock.patch("resetd_client.member.MOST_TURNS", 3))
        if without == "torn":
            stack.enter_context(mock.patch("resetd_client.starts.read_rows", read_torn))
        if without == "earlier":
            stack.enter_context(mock.patch("resetd_client.starts.Shelf._sync_what_was_read", lambda shelf: Now.disk.sync(START)))
        yield


class Proxy(AtFront):
    """Carries out all orders, and pushes nothing."""

    def __init__(self, disk: Disk) -> None:
        self.folder, self._disk = "/disk", disk

    def order_all(self, orders: Sequence[Mapping[str, Any]], *, on_view: Callable[[View], None] = lambda view: None,
                  view: View | None = None) -> list[Outcome]:
        self._disk.step()
        if view is not None:
            on_view(view)
        self._disk.step()
        return [Reply("done", 0) for _ in orders]

    def take(self) -> View | None:
        return None

    def await_view(self, seconds: float) -> None:
        pass


class Looks:
    """A port that shows random views of nodes 1 and 2, and possibly 3. If it is calm, it only shows that they confirm one
    epoch."""

    def __init__(self, disk: Disk, is_calm: bool) -> None:
        self._disk, self._rng, self._shown = disk, disk.rng, list[View]()
        self._is_calm = is_calm

    def show(self) -> View:
        self._disk.step()
        self._shown.append(self._any() if not self._shown or self._rng.random() < 0.6 else self._rng.choice(self._shown))
        return self._shown[-1]

    def _any(self) -> View:
        rng = self._rng
        if self._is_calm:
            confirmed = rng.randint(0, 1)
            return view_of([[1, 2, 3]], [[node, 1, "ready", 0, 1, confirmed] for node in (1, 2)])
        epochs = [rng.randint(1, 2) for _ in range(3)]
        nodes, links = [1, 2], [[1, 2, rng.choice([3, 3, 3, 4])]]
        if rng.random() < 0.3:
            nodes.append(3)
            links.append([2, 3, 5])
        is_through = rng.random() < 0.5
        rows: list[list[object]] = [[node, 1, "ready" if is_through or rng.random() < 0.9 else "converge", 0, epochs[node - 1],
                 epochs[node - 1] - (not is_through and rng.random() < 0.5)] for node in nodes]
        return view_of(links, rows)


def view_of(links: list[list[int]], nodes: list[list[object]]) -> View:
    return View.of({"accepted": 9, "settled": 9, "links": links, "nodes": nodes})


class Scenario:
    """A member in a random scenario, and its messages in each run."""

    def __init__(self, seed: int, work: Work, without: str) -> None:
        self.rng = random.Random(seed)
        self.disk, self.work = Disk(self.rng, without), work
        self.is_calm = self.rng.random() < 0.35  # then the first process is killed while it begins, and the power is cut after the second
        self.looks = Looks(self.disk, self.is_calm)
        self.numbers = itertools.count(1)
        self.start: Start = None  # as the process finds it
        self.maybe: list[Start] = [None]  # possible texts after a power cut
        self.talked: list[tuple[Start, str]] = []
        if work is not Work.MEMORY and self.rng.random() < 0.2:
            self.begin_before()

    def begin_before(self) -> None:
        """Writes the file of a start of an earlier version, which has synced that it is begun and has talked with nobody; or
        the one that it leaves if it is killed before that sync: then the disk says that nothing is begun."""
        epoch = self.rng.randint(1, 2)
        self.start = (epoch, next(self.numbers))
        self.maybe = [self.start]
        self.disk.cache[START] = f'{{"1": {{"begun": {epoch}, "party": null}}}}\n'
        self.disk.maybe[START] = [self.disk.cache[START]] + [None] * self.rng.randint(0, 1)

    def put_work(self, start: Start) -> None:
        self.disk.step()
        self.start = start
        self.maybe.append(start)

    def begin(self, epoch: int) -> None:
        if self.work is Work.PARTS and self.start:
            self.put_work((self.start[0], next(self.numbers)))  # some parts are new, and the epoch is still the old one
            self.put_work(None)
        self.put_work((epoch, next(self.numbers)))
        if self.work is not Work.MEMORY:
            self.disk.step()
            self.maybe = [self.start]

    def note_run(self, run: Run | None) -> None:
        if run is not None and run.tag:
            self.talked.append((self.start, run.tag.split("-")[0]))

    def run_process(self, place: int) -> None:
        """Runs a process until it ends: the first, the second and so on."""
        if self.work is Work.MEMORY:
            self.start, self.maybe = None, [None]
        steps = self.rng.randint(0, 14) if self.is_calm and place == 0 else self.rng.randint(0, 40)
        self.disk.left = self.rng.choice([steps, steps, 1 << 30]) if not (self.is_calm and place == 0) else steps
        try:
            member = Member(cast(Port, self.looks), Proxy(self.disk), 1, self.start[0] if self.start else None, self.begin,
                            told=lambda text: None, work=self.work, on_run=self.note_run)
            leave_out(self.disk.without, member._shelf)
            for _ in range(self.rng.randint(1, 8)):
                with suppress(Away):
                    member.look()
        except End:
            pass
        is_cut = place == 1 if self.is_calm and place < 2 else self.rng.random() < 0.5
        if is_cut:
            self.disk.cut()
            self.start = self.rng.choice(self.maybe)
            self.maybe = [self.start]

    def fault(self) -> str | None:
        """Describes the violation of the theorem, if there is one."""
        by_start, by_run = dict[Start, str](), dict[str, Start]()
        for start, run in self.talked:
            if by_start.setdefault(start, run) != run:
                return f"start {start} talks in two runs"
            if by_run.setdefault(run, start) != start:
                return f"two starts talk in one run: {by_run[run]} and {start}"
        return None


def leave_out(without: str, shelf: Shelf) -> None:
    keep, write = shelf.keep, shelf.write

    def keep_in_other_order(is_synced: bool = False) -> None:
        write(is_synced)
        keep(is_synced)
    if without in ("drop", "again"):
        setattr(shelf, "keep", lambda is_synced=False: keep(False))
    if without == "first":
        setattr(shelf, "keep", keep_in_other_order)


def search(seeds: Iterator[int] | range, work: Work, without: str = "") -> tuple[int, str] | None:
    """Returns the first scenario that violates the theorem, and how."""
    with in_memory(without):
        for seed in seeds:
            scenario = Scenario(seed, work, without)
            Now.disk = scenario.disk
            for place in range(scenario.rng.randint(3 if scenario.is_calm else 2, MOST_PROCESSES)):
                scenario.run_process(place)
            if fault := scenario.fault():
                return seed, fault
    return None


def main() -> None:
    count = next((int(word) for word in sys.argv[1:] if word.isdigit()), 20_000)
    without = sys.argv[sys.argv.index("--without") + 1] if "--without" in sys.argv else ""
    if without and without not in PARTS:
        sys.exit(__doc__)
    found = {work: search(range(count), work, without) for work in Work}
    for work, fault in found.items():
        print(f"{work.name.lower():7} {f'scenario {fault[0]}: {fault[1]}' if fault else f'no violation in {count:,} scenarios'}", flush=True)
    sys.exit(any(found.values()))


if __name__ == "__main__":
    main()
