"""A store's file, read by the rules of docs/FORMATS.md, even while it is served: its content, and a copy of it."""

from __future__ import annotations

import errno
import os
import stat
from collections.abc import Callable
from dataclasses import dataclass

from .errors import ResetdError
from .store_grammar import VERSIONS, Batch, NotSpelled, World, batch_of, world_of

MAGIC = b"ACRRESET"
HEADER = 17
HALVES = range(32_768, 16_777_217)
MOST_SNAPSHOT, MOST_BODY = 16_384, 8_192
TOP = 5  # the version byte and the length of the snapshot
MOST_PASSES = 1_000

Read = Callable[[int, int], bytes]


class NoStore(ResetdError):
    """The file is not a readable store: the fault's name as `resetd` prints it, and the position of the fault. Needs a person."""

    def __init__(self, name: str, place: int, what: str) -> None:
        super().__init__(f"{name}: at byte {place}, {what}")
        self.name, self.place = name, place


class Restless(ResetdError):
    """Every pass over a served store met a checkpoint; the same call may succeed later. A program can retry by itself: this
    needs no person, unless it lasts."""

    needs_person = False


@dataclass(frozen=True)
class Half:
    """The content of one half of a store: its version, its snapshot, and the bodies after open gates. `start` is the half's
    offset in the file, and `places` has the offsets of the bodies."""

    size: int
    index: int
    version: int
    snapshot: bytes
    bodies: tuple[bytes, ...]

    @property
    def start(self) -> int:
        return HEADER + self.index * self.size

    @property
    def used(self) -> int:
        """Returns the number of bytes that the half uses, including its closed gate."""
        return TOP + len(self.snapshot) + 1 + sum(len(body) + 5 for body in self.bodies)

    @property
    def places(self) -> list[int]:
        place, places = self.start + TOP + len(self.snapshot) + 5, []
        for body in self.bodies:
            places.append(place)
            place += len(body) + 5
        return places

    def file(self) -> bytes:
        """Returns the bytes of a store that has only this content, in its first half."""
        parts = [b"\0", MAGIC, self.size.to_bytes(8, "big"), bytes([self.version]), len(self.snapshot).to_bytes(4, "big"),
                 self.snapshot]
        for body in self.bodies:
            parts += [b"\1", len(body).to_bytes(4, "big"), body]
        return b"".join([*parts, b"\0"])


@dataclass(frozen=True)
class Store:
    """A half whose snapshot encodes a world, and whose bodies encode batches that continue it."""

    half: Half
    world: World
    batches: tuple[Batch, ...]

    @property
    def count(self) -> int:
        """Returns the number of steps of the store."""
        return self.batches[-1].last if self.batches else self.world.count


def store_of(half: Half) -> Store:
    """Returns the store that a half encodes. It does not check whether the world accepts the steps; `resetd check` does. Raises
    NoStore."""
    if half.version not in VERSIONS:
        raise NoStore("BadSnapshot", half.start, f"this library does not know version {half.version} of the format")
    try:
        world = world_of(half.snapshot, half.version)
    except NotSpelled as fault:
        raise NoStore("BadSnapshot", half.start + TOP + fault.place, f"the snapshot can't be decoded ({fault.kind})") from None
    count, batches = world.count, list[Batch]()
    for place, body in zip(half.places, half.bodies):
        try:
            batch = batch_of(body, half.version)
        except NotSpelled as fault:
            raise NoStore("BadBatch", place + fault.place, f"batch {len(batches)} can't be decoded ({fault.kind})") from None
        if batch.first != count + 1:
            raise NoStore("BadBatch", place, f"batch {len(batches)} begins with step {batch.first} instead of {count + 1}")
        batches.append(batch)
        count = batch.last
    return Store(half, world, tuple(batches))


def read_half(read: Read, is_other: bool = False) -> Half:
    """Returns the selected half, or the other one, as it was at one moment of this call, even while the store is served. It
    includes every order that was answered before the call. Raises NoStore and Restless."""
    head = read(0, HEADER)
    size = int.from_bytes(head[9:], "big")
    if len(head) < HEADER or head[1:9] != MAGIC or size not in HALVES:
        raise NoStore("NoMagic", min(len(head), 1), "the file does not begin with the header of a store")
    for _ in range(MOST_PASSES):
        if (half := one_pass(read, size, is_other)) is not None:
            return half
    raise Restless(f"a checkpoint interrupted all {MOST_PASSES} attempts to read the store")


def one_pass(read: Read, size: int, is_other: bool) -> Half | None:
    """Makes one pass over a half. Returns None if a checkpoint came in between.

    A half is rewritten only while the other one is selected. So the selector must be the same before and after the first
    reading of the top, and again after the batches, and then the top must still be the same: each checkpoint has a new count
    of steps.
    """
    selector = selected(read)
    index = selector ^ is_other
    top = top_of(read, HEADER + index * size)
    if selected(read) != selector:
        return None
    fault = None
    try:
        half = walked(read, size, index, top)
    except NoStore as found:
        fault = found
    is_still = selected(read) == selector and top_of(read, HEADER + index * size) == top
    if is_still and fault:
        raise fault
    return half if is_still else None


def selected(read: Read) -> int:
    """Returns the index of the half that the selector selects."""
    return read(0, 1)[0] % 2


def top_of(read: Read, start: int) -> bytes:
    """Returns the version, the length of the snapshot, and the snapshot, as far as the file has them."""
    reading = read(start, TOP + MOST_SNAPSHOT)
    return reading[:TOP + int.from_bytes(reading[1:TOP], "big")]


def walked(read: Read, size: int, index: int, top: bytes) -> Half:
    """Reads a half from its top to its first closed gate. A gate opens only once its body and the closed gate after it are
    written. So each gate is read by a call that begins after the previous gate was seen open, together with the body between
    them. Raises NoStore."""
    start = HEADER + index * size

    def with_gate(place: int, length: int, most: int, what: str) -> tuple[bytes, int]:
        """Returns a field and the gate after it."""
        if length > most:
            raise NoStore("BadRecord", start + place - 4, f"{what} has {length} bytes, more than the maximum of {most}")
        field = read(start + place, length + 1)
        if place + length >= size or len(field) <= length:
            raise NoStore("BadRecord", start + place, f"{what} of {length} bytes and its gate byte extend past the end")
        return field[:-1], field[-1]

    snapshot, gate = with_gate(TOP, int.from_bytes(top[1:TOP], "big"), MOST_SNAPSHOT, "a snapshot")
    place, bodies = TOP + len(snapshot) + 1, list[bytes]()
    while gate != 0:
        length = int.from_bytes(read(start + place, 4), "big")
        body, gate = with_gate(place + 4, length, MOST_BODY, "a body")
        place += 4 + length + 1
        bodies.append(body)
    return Half(size, index, top[0], top[TOP:], tuple(bodies))


def reader_of(descriptor: int) -> Read:
    """Returns a reader of an open file."""
    def read(place: int, length: int) -> bytes:
        parts = []
        while length and (part := os.pread(descriptor, length, place)):
            parts.append(part)
            place, length = place + len(part), length - len(part)
        return b"".join(parts)
    return read


def open_store(path: str) -> int:
    """Opens a store's file and returns its descriptor. Refuses a path that is not a regular file, and never blocks. Raises
    OSError."""
    descriptor = os.open(path, os.O_RDONLY | os.O_NONBLOCK | os.O_CLOEXEC)
    if not stat.S_ISREG(os.fstat(descriptor).st_mode):
        os.close(descriptor)
        raise OSError(errno.EINVAL, "it is not a regular file", path)
    return descriptor


def read_store(path: str, is_other: bool = False) -> Store:
    """Reads the store in a file. Raises NoStore, Restless, OSError."""
    descriptor = open_store(path)
    try:
        return store_of(read_half(reader_of(descriptor), is_other))
    finally:
        os.close(descriptor)
