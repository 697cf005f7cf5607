"""A disk with a volatile cache, which records all writes and flushes."""

import mmap
import os
import threading
from typing import Literal

SECTOR = 512
# Sectors by their numbers.
Sectors = dict[int, bytes]
# An entry of the list: a write with its position and bytes, a flush, or the text of a marker.
Write = tuple[Literal["write"], int, bytes]
Entry = Write | tuple[Literal["flush"]] | tuple[Literal["marker"], str]


def sectors_of(at: int, data: bytes) -> Sectors:
    """Returns the sectors of a write."""
    return {at // SECTOR + each: data[SECTOR * each:SECTOR * (each + 1)] for each in range(len(data) // SECTOR)}


class Disk:
    """Bytes over a base file, which stays unchanged. `log` has the writes and flushes while `is_recording`; otherwise `show`
    undoes them."""

    def __init__(self, base: str, is_recording: bool = False) -> None:
        self.size = os.path.getsize(base)
        with open(base, "rb") as file:
            self._base = mmap.mmap(file.fileno(), self.size, prot=mmap.PROT_READ)
            self.now = mmap.mmap(file.fileno(), self.size, flags=mmap.MAP_PRIVATE, prot=mmap.PROT_READ | mmap.PROT_WRITE)
        self.is_recording, self.log = is_recording, list[Entry]()
        self.durable: Sectors = {}
        self._changed, self._lock = set[int](), threading.Lock()

    def write(self, at: int, data: bytes) -> None:
        with self._lock:
            self.now[at:at + len(data)] = data
            if self.is_recording:
                self.log.append(("write", at, data))
            else:
                self._changed.update(range(at // SECTOR, (at + len(data) + SECTOR - 1) // SECTOR))

    def flush(self) -> None:
        with self._lock:
            if self.is_recording:
                self.log.append(("flush",))

    def settle(self, sectors: Sectors) -> None:
        """Makes these sectors durable."""
        self.durable.update(sectors)
        for number, data in sectors.items():
            self._put(number, data)

    def show(self, sectors: Sectors) -> None:
        """Makes the disk the durable bytes with these sectors over them, as a cut has left it. Everything written since is
        dropped."""
        for number in self._changed:
            self._put(number, self.durable.get(number) or self._base[number * SECTOR:(number + 1) * SECTOR])
        self._changed = set(sectors)
        for number, data in sectors.items():
            self._put(number, data)

    def _put(self, number: int, data: bytes) -> None:
        self.now[number * SECTOR:(number + 1) * SECTOR] = data
