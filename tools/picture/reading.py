"""Reads a run's printed lines as a wave to draw, with a column for each step in which something visible happens."""

from __future__ import annotations

import re
from collections import defaultdict
from collections.abc import Callable
from dataclasses import dataclass, field, replace


class Unknown(Exception):
    """A line that has no meaning for a picture of a run."""


@dataclass
class Cell:
    """The action of a node in a column."""
    asked: bool = False
    dropped: bool = False
    taken: str = ""
    sent: list[str] = field(default_factory=list)
    epoch: int | None = None


@dataclass
class Column:
    """A step: the kind of its reply, its command if it is known, and the nodes that are in a reset after it. A `signal` that
    the server printed, and a `start` of the program, have a column too."""
    index: int
    step: int
    kind: str
    label: str = ""
    modes: dict[int, str] = field(default_factory=dict)
    cells: dict[int, Cell] = field(default_factory=lambda: defaultdict(Cell))
    taken: Message | None = None


@dataclass
class Message:
    """A message, from the column in which it was sent to the one in which it was taken, or lost with its link."""
    kind: str
    sender: int
    receiver: int
    number: int
    sent: Column
    again: Column | None = None
    end: Column | None = None
    taken: bool = False


class Wave:
    """A wave, read line by line. A node is `reached` from the reset that it asks for, or from the first abort that it takes,
    and `acknowledged` once it has sent its ack to the sender of that abort."""

    def __init__(self, commands: dict[int, list[str]] | None = None) -> None:
        self.commands = commands or {}
        self.nodes = set[int]()
        self.steps = 0
        self.all_columns: list[Column] = []
        self.messages: list[Message] = []
        self.lanes: dict[tuple[int, int], Message] = {}
        self.parents: dict[int, int] = {}

    @property
    def column(self) -> Column:
        if not self.all_columns:
            raise Unknown("no step was printed before it")
        return self.all_columns[-1]

    @property
    def columns(self) -> list[Column]:
        """Returns the columns in which something visible happens."""
        return [column for column in self.all_columns if column.cells or column.kind == "start"]

    def signals(self) -> list[tuple[int, int]]:
        """Returns each signal as its node and epoch, in the order in which they were printed."""
        return [(node, cell.epoch) for column in self.columns for node, cell in column.cells.items()
                if cell.epoch is not None]

    def read(self, line: str) -> None:
        for pattern, act in LINES:
            match = pattern.fullmatch(line)
            if match:
                act(self, *(int(word) if word.isdigit() else word for word in match.groups("")))
                return
        raise Unknown("not an output line of `resetd drill` or `resetd serve`")

    def begin(self, step: int, kind: str) -> None:
        modes = dict(self.all_columns[-1].modes) if self.all_columns else {}
        self.all_columns.append(Column(len(self.all_columns), step, kind, modes=modes))
        self.steps = step

    def reply(self, kind: str, step: int) -> None:
        if step <= self.steps:
            return  # the kept reply to a repeated order is no step
        self.begin(step, kind)
        command = self.commands.get(step, [""])
        self.column.label = " ".join(command)
        if command[0] == "add":
            self.nodes.add(int(command[1]))
        elif command[0] == "reset":
            self.ask(int(command[1]))
        elif command[0] == "drop":
            self.drop(int(command[1]), int(command[2]))

    def ask(self, node: int) -> None:
        self.nodes.add(node)
        self.column.cells[node].asked = True
        if self.column.kind == "started":
            self.column.modes[node] = "reached"

    def ask_unless_known(self, kind: str, node: int) -> None:
        """Without the input, assumes that the node that asked is the first one to send or to be signalled."""
        if self.column.kind == kind and not any(cell.asked for cell in self.column.cells.values()):
            self.ask(node)

    def drop(self, a: int, b: int) -> None:
        self.nodes.update((a, b))
        for sender, receiver in ((a, b), (b, a)):
            self.column.cells[sender].dropped = True
            self.lose(self.lanes.pop((sender, receiver), None))
            if self.parents.get(sender) == receiver:
                del self.parents[sender]

    def lose(self, message: Message | None) -> None:
        if message and not message.taken:
            message.end = self.column

    def data(self, sender: int, receiver: int, number: int, kind: str) -> None:
        self.nodes.update((sender, receiver))
        last = self.lanes.get((sender, receiver))
        if last and (last.number, last.kind) == (number, kind):
            last.again = self.column  # sent again
            return
        self.lose(last)
        self.ask_unless_known("started", sender)
        message = Message(kind, sender, receiver, number, self.column)
        self.messages.append(message)
        self.lanes[sender, receiver] = message
        if kind not in self.column.cells[sender].sent:
            self.column.cells[sender].sent.append(kind)
        if kind == "ack" and self.parents.get(sender) == receiver:
            self.column.modes[sender] = "acknowledged"

    def receipt(self, sender: int, receiver: int, number: int) -> None:
        if self.column.kind != "taken" or self.column.taken:
            return  # sent again
        message = self.lanes.get((sender, receiver))
        if not message or message.number != number:
            raise Unknown("its packet was not printed before it")
        if message.taken:  # of a link that was dropped and joined, in a run whose input is not known
            message = replace(message, sent=message.again or message.sent)
            self.messages.append(message)
        message.taken, message.end, self.column.taken = True, self.column, message
        self.column.cells[receiver].taken = message.kind
        if message.kind == "abort" and receiver not in self.column.modes:
            self.column.modes[receiver] = "reached"
            self.parents[receiver] = sender

    def signal(self, node: int, epoch: int) -> None:
        if not self.all_columns or self.column.kind in ("signal", "start"):
            self.begin(self.steps + 1, "signal")  # the server prints no replies
        self.ask_unless_known("finished", node)
        self.nodes.add(node)
        self.column.cells[node].epoch = epoch
        self.column.modes.pop(node, None)
        self.parents.pop(node, None)

    def start(self) -> None:
        """Records that the program begins with the content of its disk. The first start is not drawn, because nothing precedes
        it."""
        if self.all_columns:
            self.begin(self.steps, "start")

    def nothing(self) -> None:
        """Accepts a known line for which nothing is drawn."""


ACTS: tuple[tuple[str, Callable[..., None]], ...] = (
    (r"(done|started|finished|joined|taken|cleared) (\d+)", Wave.reply),
    (r"receipt (\d+) (\d+) (\d+)", Wave.receipt),
    (r"data (\d+) (\d+) (\d+) (abort|ack|ready)(?: \d+)?", Wave.data),
    (r"signal (\d+) (\d+)", Wave.signal),
    (r"no \d+ \w+|idle|legal|violated \d+ \d+ \w|bad line \d+", Wave.nothing),
    (r"pending \d+|settled \d+|commit \d+ \w+|view \d+ \d+", Wave.nothing),
    (r"node \d+ \d+ (?:ready|abort|converge) \d+ \d+ \d+|link \d+ \d+ \d+", Wave.nothing),
    (r"opened \d+|listening [\d.]+:\d+", Wave.start),
)
LINES = [(re.compile(pattern), act) for pattern, act in ACTS]
