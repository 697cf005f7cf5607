"""A gateway: one process with one client, which looks and confirms for any number of members. Each member has a folder
(seats.py)."""

from __future__ import annotations

import math
import os
import time
from collections.abc import Callable, Iterable, Mapping
from types import MappingProxyType
from typing import NamedTuple

from .answers import Away
from .at_front import AtFront
from .changes import Changes
from .following import DOUBT_SECONDS, LOOK_SECONDS, Following, Stopped, check_every
from .orders import Orders, warn
from .party import are_parted
from .port import Port
from .rule import Due
from .seats import Board, Seat, number_of
from .signals import Wake, Wakes
from .since import boot_name
from .starts import Shelf, Starts
from .view import Node, View

MOST_TURNS = 100  # in one look
GATHER_SECONDS = 0.01  # to wait for more members to begin after the last one did; then they are confirmed together


class Desk:
    """The members of one node, which begin and talk together: their seats, and the stored state of their starts."""

    def __init__(self, node: int, shelf: Shelf, folder: str, names: Iterable[str],
                 numbers: Mapping[str, int] = MappingProxyType({})) -> None:
        """`numbers` are the numbers of the members' last instructions, by the members' names."""
        self.node, self._shelf = node, shelf
        self.seats = [Seat(os.path.join(folder, name)) for name in names]
        self._least = max([numbers.get(seat.name, 0) for seat in self.seats], default=0)
        self.starts = Starts(shelf, node, self._begun())
        self.instructed: int | None = None  # the epoch of this process's last instruction, until it is confirmed
        self.tag: str | None = None  # of the run in which the members may talk; empty if the node is alone

    @property
    def instruction(self) -> str:
        """The last instruction to the members, empty if there was none."""
        return self._shelf.told(self.node)

    def due(self, view: View, row: Node) -> Due:
        """Returns the action that is due for a view with the node's row."""
        self.starts.work = begun = self._begun()
        if begun is not None and self.starts.begun != begun:
            self.starts.note_begun(begun)
        return Due.WAIT if self._is_instructed(row) else self.starts.due(view, row)

    def has_begun(self, row: Node) -> bool:
        """Returns whether all members have begun as this process instructed, and that is stored, so that it can be confirmed."""
        return self._is_instructed(row) and self.starts.begun == row.epoch

    def awaits_begin(self) -> bool:
        """Returns whether this process instructed the members to begin, and not all of them have."""
        return self.instructed is not None and self._begun() is None

    def note_begin(self, epoch: int) -> None:
        """Records that all members are to begin an epoch."""
        number = 1 + max([self._least, number_of(self.instruction), *(seat.number for seat in self.seats)])
        self.starts.note_begin(told=f"{epoch} {number}\n")
        self.instructed = epoch

    def note_confirmed(self) -> None:
        """Records that the instructed epoch, which all members have begun, was confirmed."""
        self.instructed = None

    def lines(self, boot: str) -> str:
        """Returns the instructions to the node's members (seats.py)."""
        run = "" if self.tag is None else f" {self.tag or '-'} {boot}"
        return "".join(f"{seat.name} {self.instruction.strip()}{run}\n" for seat in self.seats) if self.instruction else ""

    def is_parted(self) -> bool:
        """Returns whether a talking member has refused a tag that will never equal its own."""
        refused = [tag for seat in self.seats if (tag := seat.take_refused())]
        return any(are_parted(self.tag or "", tag) for tag in refused)

    def _is_instructed(self, row: Node) -> bool:
        return self.instructed == row.epoch and not any(seat.has_lost(self.instruction) for seat in self.seats)

    def _begun(self) -> int | None:
        instruction = self.instruction
        return int(instruction.split()[0]) if instruction and all(seat.has_begun(instruction) for seat in self.seats) else None


class Judged(NamedTuple):
    """The members of one node, the node's row, and the action that is due for it."""

    desk: Desk
    row: Node
    due: Due


class Gateway(Following):
    """Serves members. `members` has the names of each node's members; the member NAME has the folder FOLDER/NAME. All members
    of one node, for example the processes on one host, must begin before the node's epoch is confirmed. One file has the
    instructions to all members (seats.py)."""

    def __init__(self, port: Port, orders: Orders | AtFront, members: Mapping[int, Iterable[str]], folder: str, *,
                 word: str = "", told: Callable[[str], None] = warn) -> None:
        """`orders` is an AtFront if every address of the port is one of the proxy. Raises Unreadable if a file of the gateway can't be
        read, and BadWords if the name of a member is invalid."""
        super().__init__(orders, told)
        self.port, self._word, self._boot = port, word, boot_name()
        os.makedirs(folder, exist_ok=True)
        self._shelf, self._board = Shelf(os.path.join(folder, "starts.json")), Board(folder)
        self.desks = [Desk(node, self._shelf, folder, names, self._board.numbers) for node, names in members.items()]
        self._changes = Changes(path for desk in self.desks for seat in desk.seats for path in seat.written_by_member())
        self._changes.take()
        self._written: set[str] = set()  # names of files that members have written since the last look
        self._last_written = 0.0  # the time of the last such write
        self._absent: set[int] = set()
        self._is_through = False
        self._last: View | None = None
        if earlier := [seat.name for desk in self.desks for seat in desk.seats if seat.is_earlier]:
            self._report(f"{len(earlier)} members, such as {earlier[0]}, have instructions from a gateway of an earlier version: start them again "
                         "with this version")

    def look(self) -> View:
        """Queries `show` once for all members. Publishes the epochs to begin, confirms the begun ones, asks for resets, and
        looks again if it ordered something. Raises like `Member.look`."""
        return self._look_from(self._view())

    def follow(self, wakes: Wakes, every: float = LOOK_SECONDS) -> None:
        """Looks at each wake-up, after this many seconds, when members have begun, and after each absence of the coordinator,
        until no more wake-ups will come or `stop` is called."""
        check_every(every)
        is_local = False
        while (self._look_at_last() if is_local else None) or self._look_patiently() is not None:
            wake = self._wait(wakes, self._next_wait(self._is_through, every), self._sooner, self._changes)
            if wake is Wake.END:
                return
            is_local = wake is Wake.QUIET and self._written == {"begun"} and self._awaits_members()
            self._written = set()

    def _look_at_last(self) -> View | None:
        """Judges the last view again, if members have begun and the proxy has pushed no other view. Returns None if that is not
        so, or if the coordinator is away."""
        if self._at_proxy is None or self._last is None or not self._at_proxy.descriptors():
            return None
        try:
            return self._look_from(self._at_proxy.take() or self._last)
        except (Away, Stopped):
            return None

    def _awaits_members(self) -> bool:
        return any(desk.instructed is not None for desk in self.desks)

    def _look_from(self, view: View) -> View:
        for _ in range(MOST_TURNS):
            self._last = view
            rows = {row.node: row for row in view.nodes}
            self._note_absent({desk.node for desk in self.desks} - set(rows))
            judged = self._judge(view, rows)
            self._instruct_members(view, judged)
            if not self._order_what_is_due(view, judged):
                return view
            self._waits = 0
            self._await_view()
            view = self._view()
        raise Away("the nodes had new epochs at every look")

    def _sooner(self, began: float) -> float:
        """A look is due when all instructed members have begun, or when no other member has begun for a moment: they are
        confirmed together. It is due soon after a member has refused a tag."""
        written = {os.path.basename(path) for path in self._changes.take() if os.path.exists(path)}
        if "begun" in written:
            self._last_written = time.monotonic()
        self._written |= written
        if "begun" in self._written:
            return self._last_written + (GATHER_SECONDS if any(desk.awaits_begin() for desk in self.desks) else 0.0)
        return began + DOUBT_SECONDS if self._written else math.inf

    def _judge(self, view: View, rows: Mapping[int, Node]) -> list[Judged]:
        """Returns the due action at each node that exists. Stores the required state of all nodes in one write. So members are
        instructed to begin only once the reset is over in their group, and they have stopped talking by then."""
        judged = [Judged(desk, rows[desk.node], desk.due(view, rows[desk.node])) for desk in self.desks if desk.node in rows]
        begin = [each for each in judged if each.due is Due.BEGIN and view.part(each.desk.node).is_quiet]
        for each in begin:
            each.desk.note_begin(each.row.epoch)
        self._shelf.keep(is_synced=bool(begin))
        self._is_through = len(judged) == len(self.desks) and all(each.due is Due.TALK for each in judged)
        return judged

    def _instruct_members(self, view: View, judged: list[Judged]) -> None:
        """Publishes the run in which members may talk, and the epochs that they must begin."""
        talking = {each.desk.node for each in judged if each.due is Due.TALK}
        self._asked -= talking
        for desk in self.desks:
            desk.tag = desk.starts.tag(view, self._word) if desk.node in talking else None
        self._board.publish("".join(desk.lines(self._boot) for desk in self.desks))

    def _order_what_is_due(self, view: View, judged: list[Judged]) -> bool:
        """Confirms the begun epochs, and asks for one reset at a time, because it may reach the other nodes too. Returns
        whether it gave an order."""
        begun = [each for each in judged if each.desk.has_begun(each.row)]
        self._shelf.write()
        self._confirm({each.desk.node: each.row.epoch for each in begun}, self._foresee, view)
        for each in begun:
            each.desk.note_confirmed()
        unfit = {each.desk.node: each.desk.starts.why(each.row) for each in judged if each.due is Due.RESET}
        unfit.update({each.desk.node: "a member refuses another member's tag, although both see the same view"
                      for each in judged if each.desk.is_parted()})
        for node in list(unfit)[:1]:
            self._ask_reset(node, unfit[node], next(each.row.epoch for each in judged if each.desk.node == node))
        return bool(begun or unfit)

    def _served_node(self) -> int:
        return self.desks[0].node

    def _foresee(self, view: View) -> None:
        """Adds the parties that a view shows to the history, while confirms are on their way."""
        for desk in self.desks:
            desk.starts.foresee(view)
        self._shelf.write()
        self._shelf.keep()

    def _note_absent(self, absent: set[int]) -> None:
        if absent != self._absent:
            self._report(f"nodes of this gateway that do not exist: {sorted(absent) or 'none'}")
        self._absent = absent
