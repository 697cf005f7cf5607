"""What a power cut may leave of a disk's writes.

Everything that was written before the last answered flush is left. Of each later write, all, nothing, or any of its units is
left (512 or 4,096 bytes, which the device writes as a whole), and of a unit that was written several times any version.
"""

import collections
import random
from collections.abc import Iterator
from dataclasses import dataclass, field

from .disk import SECTOR, Entry, Sectors, sectors_of
from .stores import MAGIC

UNITS = (512, 4_096)
# The position and the bytes of each write that no flush has made durable.
Volatile = list[tuple[int, bytes]]


@dataclass
class Moment:
    """A position in the list of writes and flushes: what was durable, volatile, answered and signalled at that moment."""

    place: int = 0
    newly_durable: Sectors = field(default_factory=Sectors)
    volatile: Volatile = field(default_factory=Volatile)
    answered: int = 0  # the greatest step that was answered
    signalled: dict[int, int] = field(default_factory=dict)  # the greatest epoch of each node's signals
    phase: str = "before"

    def read_marker(self, text: str) -> None:
        for line in text.splitlines():
            word, *numbers = line.split()
            if word == "least":
                self.answered = max(self.answered, int(numbers[0]))
            elif word == "signal":
                node, epoch = map(int, numbers)
                self.signalled[node] = max(self.signalled.get(node, 0), epoch)
            else:
                self.phase = word


def moments(log: list[Entry], has_flushes: bool = True) -> Iterator[Moment]:
    """Yields the moment after each entry of the list, always as the same object, which changes. Without flushes nothing becomes
    durable."""
    moment = Moment()
    for place, entry in enumerate(log):
        moment.place, moment.newly_durable = place, Sectors()
        if entry[0] == "write":
            moment.volatile.append((entry[1], entry[2]))
        elif entry[0] == "marker":
            moment.read_marker(entry[1])
        elif has_flushes:
            for at, data in moment.volatile:
                moment.newly_durable.update(sectors_of(at, data))
            moment.volatile = []
        yield moment


def ends_of_checkpoints(log: list[Entry]) -> list[int]:
    """Returns the positions of the writes that change a store's selector."""
    last, found = None, []
    for place, entry in enumerate(log):
        if entry[0] != "write":
            continue
        _, _, data = entry
        for at in range(0, len(data), SECTOR):
            if data[at + 1:at + 1 + len(MAGIC)] == MAGIC:
                if last not in (None, data[at]):
                    found.append(place)
                last = data[at]
    return found


class Cut:
    """What is left of volatile writes, in one of eight ways, if `unit` bytes are written as a whole."""

    WAYS = ("lost", "kept", "prefix", "subset", "units", "stale", "only", "but")

    def __init__(self, choice: random.Random, unit: int) -> None:
        self._choice, self._sectors = choice, unit // SECTOR

    def leave(self, way: str, volatile: Volatile) -> Sectors:
        left: Sectors = {}
        if volatile:
            getattr(self, f"_{way}")(volatile, left)
        return left

    def _lost(self, volatile: Volatile, left: Sectors) -> None:
        """Leaves nothing."""

    def _kept(self, volatile: Volatile, left: Sectors) -> None:
        for at, data in volatile:
            left.update(sectors_of(at, data))

    def _prefix(self, volatile: Volatile, left: Sectors) -> None:
        """Leaves the first writes, and of the next one a beginning, an end, or some units."""
        count = self._choice.randrange(len(volatile))
        self._kept(volatile[:count], left)
        last = sectors_of(*volatile[count])
        units = sorted({number // self._sectors for number in last})
        place, way = self._choice.choice(units), self._choice.choice(("beginning", "end", "some"))
        some = {unit for unit in units if self._choice.random() < 0.5}
        for number, data in last.items():
            unit = number // self._sectors
            if {"beginning": unit < place, "end": unit > place, "some": unit in some}[way]:
                left[number] = data

    def _subset(self, volatile: Volatile, left: Sectors) -> None:
        """Leaves some writes, each of them whole."""
        share = self._choice.choice((0.1, 0.3, 0.5, 0.7, 0.9))
        self._kept([write for write in volatile if self._choice.random() < share], left)

    def _units(self, volatile: Volatile, left: Sectors) -> None:
        """Leaves some units of each write."""
        share = self._choice.choice((0.2, 0.5, 0.8))
        for at, data in volatile:
            is_left = dict[int, bool]()
            for number, sector in sectors_of(at, data).items():
                unit = number // self._sectors
                if unit not in is_left:
                    is_left[unit] = self._choice.random() < share
                if is_left[unit]:
                    left[number] = sector

    def _stale(self, volatile: Volatile, left: Sectors) -> None:
        """Leaves each unit as one of its writes left it, or as it was before them."""
        versions = collections.defaultdict[int, list[Sectors]](list)
        for at, data in volatile:
            of_write = collections.defaultdict[int, Sectors](dict)
            for number, sector in sectors_of(at, data).items():
                of_write[number // self._sectors][number] = sector
            for unit, sectors in of_write.items():
                versions[unit].append(sectors)
        for all_of_unit in versions.values():
            for sectors in all_of_unit[:self._choice.randint(0, len(all_of_unit))]:
                left.update(sectors)

    def _only(self, volatile: Volatile, left: Sectors) -> None:
        """Leaves only one write."""
        self._kept([self._choice.choice(volatile)], left)

    def _but(self, volatile: Volatile, left: Sectors) -> None:
        """Leaves all writes except one."""
        missing = self._choice.randrange(len(volatile))
        self._kept(volatile[:missing] + volatile[missing + 1:], left)
