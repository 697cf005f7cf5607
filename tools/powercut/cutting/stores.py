"""Stores: their group, one of version 1, and what a store's bytes contain (docs/FORMATS.md)."""

import struct
from typing import NamedTuple

NODES = 12
HALF = 32_768
LINKS = sorted({(min(a, b), max(a, b)) for a in range(1, NODES + 1) for far in (0, 1) if (b := (a + far) % NODES + 1)})
STEPS_MADE = NODES + len(LINKS)  # of a store that was just created
TOPOLOGY = f"half = {HALF}\n" + "".join(f"[[node]]\nid = {node}\ngroup = 1\n" for node in range(1, NODES + 1)) + "".join(
    f"[[link]]\na = {a}\nb = {b}\n" for a, b in LINKS)
# Each node has its own group, so no link can be made and no order sends packets.
TOPOLOGY_APART = f"half = {HALF}\n" + "".join(f"[[node]]\nid = {node}\ngroup = {node}\n" for node in range(1, NODES + 1))
MAGIC = b"ACRRESET"
COMMAND_SIZES = {0: 3, 1: 2, 2: 3, 3: 3, 4: 2, 5: 10}  # by the kind of a command
ORDER, PACKET = 0, 1  # kinds of a step


def store_of_version_1() -> bytes:
    """Returns a store of the group, as a program of format 1 made it."""
    rows = b"".join(struct.pack(">BBBBQQQ", node, 1, 0, 0, 0, 0, 0) for node in range(1, NODES + 1))
    lane = struct.pack(">QQB", 0, 0, 0)
    links = b"".join(struct.pack(">BBQ", a, b, NODES + 1 + number) + lane + lane for number, (a, b) in enumerate(LINKS))
    world = struct.pack(">QB", STEPS_MADE, NODES) + rows + bytes([len(LINKS)]) + links + b"\0"
    return b"\0" + MAGIC + struct.pack(">Q", HALF) + b"\1" + struct.pack(">I", len(world)) + world + b"\0"


class Content(NamedTuple):
    """The content of a legal store. `steps` are the bytes of each step after those of the snapshot."""

    version: int
    snapshot_count: int
    snapshot: bytes
    steps: dict[int, bytes]


def size_of_step(body: bytes, at: int, version: int) -> int:
    if body[at] == ORDER:
        return 10 + COMMAND_SIZES[body[at + 10]]
    if body[at] == PACKET:
        return 20 + (8 if version == 2 and body[at + 19] == 0 else 0)
    return 19


def steps_of(body: bytes, version: int) -> dict[int, bytes]:
    """Returns the steps of a batch."""
    first, count = struct.unpack(">QH", body[:10])
    steps, at = {}, 10
    for step in range(first, first + count):
        size = size_of_step(body, at, version)
        steps[step], at = body[at:at + size], at + size
    return steps


def read_store(data: bytes) -> Content:
    half, = struct.unpack(">Q", data[9:17])
    at = 17 + data[0] % 2 * half
    version, (size,) = data[at], struct.unpack(">I", data[at + 1:at + 5])
    snapshot, gate = data[at + 5:at + 5 + size], at + 5 + size
    steps: dict[int, bytes] = {}
    while data[gate]:
        size, = struct.unpack(">I", data[gate + 1:gate + 5])
        steps |= steps_of(data[gate + 5:gate + 5 + size], version)
        gate += 5 + size
    return Content(version, struct.unpack(">Q", snapshot[:8])[0], snapshot, steps)


class History:
    """The one history of a run: if one image has a step or a snapshot, each other image must agree with it."""

    def __init__(self) -> None:
        self.steps = dict[int, bytes]()
        self.snapshots = dict[tuple[int, int], bytes]()

    def differs(self, content: Content) -> str | None:
        """Describes how a store differs from others of this run, or returns None if it agrees."""
        key = content.version, content.snapshot_count
        if self.snapshots.setdefault(key, content.snapshot) != content.snapshot:
            return f"another snapshot of {content.snapshot_count} steps"
        for number, step in content.steps.items():
            if self.steps.setdefault(number, step) != step:
                return f"another step {number}"
        return None
