"""Judges images that a cut may leave: is the store legal, does it have everything that was answered and signalled, and does it
belong to the one history of its run?"""

import collections
import hashlib
import itertools
import os
import pickle
import random
import struct
from collections.abc import Iterator
from dataclasses import dataclass, field
from typing import NamedTuple

from .cuts import UNITS, Cut, Moment, ends_of_checkpoints, moments
from .disk import Disk, Entry, Sectors
from .machine import Gone, Machine, Maker
from .recording import GROWTH, Run, load_run
from .stores import History
from .verdicts import Disagreement, Looker, Verdict, hung, judge_image

INSIDE = 25  # the machine's own program checks one image out of this many
MOST_MESSAGES = 8
BEFORE_MIGRATED = ("start", "made", "migrating")


@dataclass(frozen=True)
class Places:
    """The moments at which a run is cut: in these phases, near the ends of checkpoints, or just after an answer or a signal was
    marked. If nothing is given, any moment after its beginning."""

    phases: tuple[str, ...] = ()
    is_near_checkpoints: bool = False
    is_at_markers: bool = False

    def of(self, log: list[Entry], has_flushes: bool) -> list[int]:
        found = [moment.place for moment in moments(log, has_flushes)
                 if (moment.phase in self.phases if self.phases else moment.phase != "before")]
        if self.is_near_checkpoints:
            ends = ends_of_checkpoints(log)
            found = [place for place in found if any(end - 8 <= place <= end + 6 for end in ends)]
        if self.is_at_markers:
            found = [place for place in found if log[place][0] == "marker"]
        return found


class Image(NamedTuple):
    """Identifies an image."""

    place: int
    phase: str
    way: str
    unit: int
    answered: int


@dataclass
class Tally:
    """The outcomes of the images, by the bytes of a unit. `refused` are those that the file system did not mount or gave no
    file of, or whose store the program refused; `lost` those that lack an answer, or have another history. `faults` are
    those that may not occur: a lost one, or a refused one if 4,096 bytes are written as a whole. `messages` has all."""

    images: collections.Counter[int] = field(default_factory=collections.Counter)
    refused: collections.Counter[int] = field(default_factory=collections.Counter)
    lost: collections.Counter[int] = field(default_factory=collections.Counter)
    kinds: collections.Counter[str] = field(default_factory=collections.Counter)
    apart: int = 0
    messages: list[str] = field(default_factory=list)
    faults: list[str] = field(default_factory=list)

    def add(self, other: "Tally") -> None:
        self.images += other.images
        self.refused += other.refused
        self.lost += other.lost
        self.kinds += other.kinds
        self.apart += other.apart
        self.messages += other.messages
        self.faults += other.faults

    def note(self, image: Image, verdict: Verdict, lost: str | None) -> None:
        self.images[image.unit] += 1
        self.kinds[verdict.kind] += 1
        is_refused = verdict.kind != "legal" and image.answered > 0
        self.refused[image.unit] += is_refused
        self.lost[image.unit] += lost is not None
        if not is_refused and lost is None:
            return
        why = f"{image}: {lost or f'{verdict.kind}: {verdict.said.strip()[:300]}'}"
        if len(self.messages) < MOST_MESSAGES:
            self.messages.append(why)
        if lost is not None or image.unit == max(UNITS):
            self.faults.append(why)


def key_of(sectors: Sectors, durable: Sectors) -> bytes:
    """Returns a key that is equal for images with the same bytes."""
    changed = (struct.pack(">Q", number) + sectors[number] for number in sorted(sectors) if durable.get(number) != sectors[number])
    return hashlib.sha256(b"".join(changed)).digest()


class Judge:
    """Judges the images of one run, in a machine that is restarted if it hangs."""

    def __init__(self, make: Maker, folder: str, program: str, has_flushes: bool = True) -> None:
        self._make, self._folder, self._has_flushes = make, folder, has_flushes
        self.run, self.log = load_run(folder)
        self._disk, self._looker = Disk(f"{folder}/base"), Looker(program, self.run.mutant)
        self._machine: Machine | None = None
        self.history, self.tally = History(), Tally()
        self._known = dict[bytes, Verdict]()  # verdicts for the bytes that are durable now
        if has_flushes and os.path.exists(f"{folder}/history"):
            with open(f"{folder}/history", "rb") as file:
                self.history = pickle.load(file)

    def judge(self, images: int, seed: int, places: Places = Places(), is_until_fault: bool = False) -> Tally:
        """Judges this many images, or until the first fault. Judges none if the run has no such moment."""
        choice = random.Random(seed)
        where = places.of(self.log, self._has_flushes)
        wanted = collections.Counter(choice.choice(where) for _ in range(images)) if where else collections.Counter[int]()
        try:
            for moment in self._moments(wanted):
                for _ in range(wanted[moment.place]):
                    self._judge_one(moment, choice)
                if is_until_fault and self.tally.faults:
                    break
        finally:
            if self._machine:
                self._machine.end()
        self._save()
        return self.tally

    def _moments(self, wanted: collections.Counter[int]) -> Iterator[Moment]:
        """Yields the moments that are wanted, with everything that was durable at each on the disk."""
        for moment in moments(self.log, self._has_flushes):
            if moment.newly_durable:
                self._disk.settle(moment.newly_durable)
                self._known.clear()
            if moment.place in wanted:
                yield moment

    def _judge_one(self, moment: Moment, choice: random.Random) -> None:
        unit, way = choice.choice(UNITS), choice.choice(Cut.WAYS)
        left = Cut(choice, unit).leave(way, moment.volatile)
        image = Image(moment.place, moment.phase, way, unit, max(moment.answered, self.run.owed))
        key, disagreement = key_of(left, self._disk.durable), None
        if key not in self._known:
            self.tally.apart += 1
            try:
                self._known[key] = self._look(left)
            except Disagreement as found:
                self._known[key], disagreement = Verdict("legal"), str(found)
        verdict = self._known[key]
        self.tally.note(image, verdict, disagreement or self._lost(image, moment, verdict))

    def _look(self, left: Sectors) -> Verdict:
        """Returns the machine's verdict, from a second try if it hangs at the first."""
        for is_last in (False, True):
            try:
                if self._machine is None:
                    self._disk.show({})
                    self._machine = self._make(self._disk)
                    if self.run.mutant is not None:
                        self._machine.must("variable", "MUTANT", 0)
                self._disk.show(left)
                return judge_image(self._machine, self.run, self._looker, self.tally.apart % INSIDE == 1)
            except Gone as gone:
                if self._machine:
                    self._machine.end()
                self._machine = None
                if is_last:
                    return hung(gone)
        raise AssertionError

    def _lost(self, image: Image, moment: Moment, verdict: Verdict) -> str | None:
        """Describes what a legal store lacks, or returns None if it lacks nothing."""
        if verdict.kind != "legal":
            return None
        if verdict.count < image.answered:
            what = "bytes" if self.run.scenario == GROWTH else "steps"
            return f"it has {verdict.count} {what}, and {image.answered} were acknowledged"
        if verdict.content is None:
            return None
        signalled = itertools.chain(((int(node), epoch) for node, epoch in self.run.signalled.items()), moment.signalled.items())
        for node, epoch in signalled:
            if verdict.epochs.get(node, -1) < epoch:
                return f"node {node} was signalled epoch {epoch}, and has {verdict.epochs.get(node)}"
        if self.run.scenario == "migration" and moment.phase not in BEFORE_MIGRATED and verdict.content.version != 2:
            return "it has version 1, and `migrated` was printed"
        return self.history.differs(verdict.content)

    def _save(self) -> None:
        """Saves the history for the next judgement of this run."""
        if self._has_flushes:
            with open(f"{self._folder}/history", "wb") as file:
                pickle.dump(self.history, file)
