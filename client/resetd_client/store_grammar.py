"""The grammars of batches and worlds (docs/FORMATS.md), decoded from left to right up to the first fault."""

from __future__ import annotations

from collections.abc import Callable, Iterator
from dataclasses import dataclass
from typing import TypeVar

MOST_STEPS_EVER = 1 << 40
MOST_IN_BATCH = 256
WORD = (1 << 64) - 1
NODES, GROUPS, CLIENTS = (1, 64), (1, 16), (1, 16)
MOST_NODES, MOST_LINKS, MOST_CLIENTS, MOST_AT_NODE, MOST_QUEUED = 64, 128, 16, 16, 4
MODES = ("ready", "abort", "converge")
ABORT, MESSAGES = 0, ("abort", "ack", "ready")
OPS = ("add", "remove", "join", "drop", "reset", "confirm")
RESET = OPS.index("reset")
KINDS = ("done", "started", "finished", "joined")
VERSIONS = (1, 2)
T = TypeVar("T")


class NotSpelled(Exception):
    """The bytes can't be decoded: Short, BadByte or Extra, and the position of the first fault."""

    def __init__(self, kind: str, place: int) -> None:
        super().__init__(f"{kind} at {place}")
        self.kind, self.place = kind, place


class Reader:
    """Decodes bytes from left to right. Each call raises NotSpelled."""

    def __init__(self, data: bytes) -> None:
        self.data, self.place = data, 0

    def number(self, size: int, least: int, most: int) -> int:
        """Decodes a number of this many bytes, from `least` to `most`."""
        if self.place + size > len(self.data):
            raise NotSpelled("Short", len(self.data))
        value = int.from_bytes(self.data[self.place:self.place + size], "big")
        if not least <= value <= most:
            raise NotSpelled("BadByte", self.place)
        self.place += size
        return value

    def byte(self, least: int, most: int) -> int:
        return self.number(1, least, most)

    def word(self, least: int = 0, most: int = WORD) -> int:
        return self.number(8, least, most)

    def counted(self, most: int, item: Callable[[], T]) -> list[T]:
        """Decodes a list: a byte with the number of items, and the items."""
        return [item() for _ in range(self.byte(0, most))]

    def end(self) -> None:
        if self.place < len(self.data):
            raise NotSpelled("Extra", self.place)


@dataclass(frozen=True)
class Command:
    """A client's command: its op and its numbers."""

    op: str
    numbers: tuple[int, ...]

    def __str__(self) -> str:
        return " ".join([self.op, *map(str, self.numbers)])


@dataclass(frozen=True)
class Ordered:
    """A step that is a client's order, with the order's number."""

    client: int
    number: int
    command: Command

    def __str__(self) -> str:
        return f"client {self.client} order {self.number}: {self.command}"


@dataclass(frozen=True)
class Taken:
    """A step in which a node takes a data packet."""

    origin: int
    target: int
    incarnation: int
    number: int
    message: str

    def __str__(self) -> str:
        return f"{self.target} takes {self.message} from {self.origin} (link of step {self.incarnation}, number {self.number})"


@dataclass(frozen=True)
class Cleared:
    """A step in which a receipt clears a message."""

    origin: int
    target: int
    incarnation: int
    number: int

    def __str__(self) -> str:
        return f"{self.origin} gets the receipt from {self.target} (link of step {self.incarnation}, number {self.number})"


Step = Ordered | Taken | Cleared


@dataclass(frozen=True)
class Batch:
    """Steps that were settled together, with the number of the first."""

    first: int
    steps: tuple[Step, ...]

    @property
    def last(self) -> int:
        return self.first + len(self.steps) - 1


@dataclass(frozen=True)
class Session:
    """A client's last order, and its reply."""

    client: int
    number: int
    command: Command
    step: int
    kind: str

    def __str__(self) -> str:
        return f"client {self.client} order {self.number}: {self.command} ({self.kind})"


@dataclass(frozen=True)
class World:
    """The parts of a snapshot that a person may ask for: the number of steps, the nodes with their modes, the links and the
    sessions."""

    count: int
    modes: dict[int, str]
    links: tuple[tuple[int, int], ...]
    sessions: tuple[Session, ...]


def batch_of(body: bytes, version: int) -> Batch:
    """Decodes the batch in a body. Raises NotSpelled."""
    reader = Reader(body)
    first = reader.word(1, MOST_STEPS_EVER)
    steps = tuple(step_of(reader, version) for _ in range(reader.number(2, 1, MOST_IN_BATCH)))
    reader.end()
    return Batch(first, steps)


def step_of(reader: Reader, version: int) -> Step:
    kind = reader.byte(0, 2)
    if kind == 0:
        return Ordered(reader.byte(*CLIENTS), reader.word(1), command_of(reader))
    packet = reader.byte(*NODES), reader.byte(*NODES), reader.word(), reader.word()
    return Taken(*packet, message_of(reader, version, WORD)) if kind == 1 else Cleared(*packet)


def command_of(reader: Reader) -> Command:
    op = OPS[reader.byte(0, len(OPS) - 1)]
    if op == "add":
        return Command(op, (reader.byte(*NODES), reader.byte(*GROUPS)))
    if op in ("join", "drop"):
        return Command(op, (reader.byte(*NODES), reader.byte(*NODES)))
    if op == "confirm":
        return Command(op, (reader.byte(*NODES), reader.word()))
    return Command(op, (reader.byte(*NODES),))


def message_of(reader: Reader, version: int, most_distance: int) -> str:
    message = reader.byte(0, len(MESSAGES) - 1)
    if message == ABORT and version == 2:
        return f"{MESSAGES[message]} {reader.word(0, most_distance)}"
    return MESSAGES[message]


def world_of(snapshot: bytes, version: int) -> World:
    """Decodes the world of a snapshot. Raises NotSpelled."""
    reader = Reader(snapshot)
    count = reader.word(0, MOST_STEPS_EVER)
    rows = Rows(reader, version, count)
    reader.counted(MOST_NODES, rows.node)
    reader.counted(MOST_LINKS, rows.link)
    sessions = reader.counted(MOST_CLIENTS, rows.session)
    reader.end()
    return World(count, rows.modes, tuple(rows.links), tuple(sessions))


class Rows:
    """Decodes the rows of a world's lists. Each row must be in its range and above the previous one."""

    def __init__(self, reader: Reader, version: int, count: int) -> None:
        self.reader, self.version, self.count = reader, version, count
        self.groups: dict[int, int] = {}
        self.modes: dict[int, str] = {}
        self.links: list[tuple[int, int]] = []
        self._last = 0

    def node(self) -> None:
        read, count = self.reader, self.count
        node = read.byte(max(self.groups, default=0) + 1, NODES[1])
        self.groups[node] = read.byte(*GROUPS)
        mode = self.modes[node] = MODES[read.byte(0, len(MODES) - 1)]
        read.byte(0, NODES[1])  # the parent
        read.word()  # the awaited nodes
        read.word(0, count)  # epoch
        read.word(0, count)  # confirmed
        if self.version == 2:
            read.word(0, 0 if mode == "ready" else count)

    def link(self) -> None:
        read, count, place = self.reader, self.count, self.reader.place
        before = self.links[-1] if self.links else (1, 1)
        a = read.byte(before[0], NODES[1])
        b = read.byte(max(a, before[1] if a == before[0] else 0) + 1, NODES[1])
        ends = [end for link in self.links for end in link]
        if self.groups.get(a, 0) != self.groups.get(b, -1) or max(ends.count(a), ends.count(b)) >= MOST_AT_NODE:
            raise NotSpelled("BadByte", place)
        self.links.append((a, b))
        read.word(1, count)
        for _ in range(2):
            read.word(0, count)  # base
            read.word(0, count)  # got
            read.counted(MOST_QUEUED, lambda: message_of(read, self.version, count))

    def session(self) -> Session:
        read, count = self.reader, self.count
        self._last = client = read.byte(self._last + 1, CLIENTS[1])
        number, command, step = read.word(1, count), command_of(read), read.word(1, count)
        kind = read.byte(1, len(KINDS) - 1) if command.op == "reset" else read.byte(0, 0)
        return Session(client, number, command, step, KINDS[kind])


def orders_of(batches: list[Batch]) -> Iterator[tuple[int, Ordered]]:
    """Returns the orders among the steps, each with the number of its step."""
    for batch in batches:
        for place, step in enumerate(batch.steps):
            if isinstance(step, Ordered):
                yield batch.first + place, step
