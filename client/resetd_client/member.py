"""A member: one node's side of a service. It decides when to begin, when to confirm, and when it may talk to others."""

from __future__ import annotations

import enum
import math
import os
import threading
from collections.abc import Callable, Iterable, Iterator
from contextlib import contextmanager
from dataclasses import dataclass, field
from typing import NamedTuple

from .answers import Away
from .at_front import AtFront
from .errors import BadWords, ResetdError, refuse_in_loop
from .fence import Fence, check_generation, check_store, count_of
from .following import DOUBT_SECONDS, LOOK_SECONDS, Following, check_every
from .orders import Orders, warn
from .party import are_parted, is_same_run
from .port import Port
from .rule import Due
from .signals import Clock, Wake, Wakes
from .starts import Shelf, Starts
from .view import Node, View

MOST_TURNS = 100  # in one look: each begins or confirms a new epoch, or asks for a reset
MOST_REFUSED = 64  # tags remembered until the next look: no group has more members


@dataclass(frozen=True)
class Run:
    """A run, in which a member may exchange messages. Each message or connection has the run's tag, a string; refuse messages
    of another run. The tag is empty if the member was connected with nobody when its start first talked: then it sends no
    message. `fence` is for a database that refuses members of earlier runs."""

    epoch: int
    tag: str
    fence: Fence | None = field(default=None, compare=False)

    def takes(self, tag: str) -> bool:
        """Returns whether a message with this tag belongs to this run. Two tags of one run need not be equal."""
        return is_same_run(self.tag, tag)


class Heard(NamedTuple):
    """What a member has learned about others between two looks: the tags that it refused, and the nodes and the greatest count
    of the fences for which a resource refused its own."""

    tags: set[str]
    takers: set[int]
    taken: int


class Work(enum.Enum):
    """How `begin` replaces the work. This determines what must be on the disk before `begin` is called."""

    PARTS = enum.auto()  # part by part: "nothing begun" is synced before
    WHOLE = enum.auto()  # as a whole, together with its epoch, by renaming one file: nothing is synced before
    MEMORY = enum.auto()  # in memory alone, and `begun` is None whenever the process starts: nothing is synced before


class OutOfRun(ResetdError):
    """There is no run, or the message belongs to another run: don't accept it, and close its connection. The program can do
    this itself, so it needs no person."""

    needs_person = False


class Member(Following):
    """One node's member. It looks at `show` whenever it is woken, and trusts only the view.

    It calls `begin` with an epoch. `begin` must drop all present work, close what is open to other members, load the common
    start, store it with the epoch, and return only once that is on the disk. `begun` is the epoch that is stored with the
    work, None if there is no work (or the work is in memory). The member keeps two files, `start-NODE.json` and
    `start-NODE.history`, in the folder of its orders: keep them as long as the work, and move them together with it.

    Either one thread calls `follow`, or the member is used in a `with` statement, which runs `follow` in a thread of its
    own, woken by `wakes` and at the latest after `every` seconds. Any other threads do their work `in_run`. The thread that
    looks calls `on_run` with each run that begins, and with None when it ends; `on_run` must not wait for that thread.
    """

    def __init__(self, port: Port, orders: Orders | AtFront, node: int, begun: int | None, begin: Callable[[int], None], *,
                 word: str = "", told: Callable[[str], None] = warn, wakes: Wakes | None = None,
                 every: float = LOOK_SECONDS, on_run: Callable[[Run | None], None] = lambda run: None, work: Work = Work.PARTS,
                 generation: int = 0) -> None:
        """`orders` is an AtFront if every address of the port is one of the proxy; it also wakes the member if `wakes` is not given.
        `generation` is for the fence: one number for all members, 0 to 8,388,607; after each restore of the coordinator's
        store it must be one that no member had before. Raises Unreadable if a file of the member can't be read, and BadWords
        if `begun` is given for work in memory, or for an invalid generation."""
        super().__init__(orders, told)
        if work is Work.MEMORY and begun is not None:
            raise BadWords("work that is only in memory ends with its process: pass begun=None")
        check_generation(generation)
        self.port, self.node, self._generation = port, node, generation
        self._shelf = Shelf(os.path.join(orders.folder, f"start-{node}.json"))
        self._starts = Starts(self._shelf, node, begun)
        if work is Work.MEMORY:
            self._shelf.keep_no_starts()
        self._begin, self._word, self._on_run = begin, word, on_run
        self._work = work
        self._wakes, self._every = wakes or self._at_proxy or Clock(), every
        self._thread: threading.Thread | None = None
        self._fault: BaseException | None = None
        self._run: Run | None = None
        self._changes = threading.Condition(threading.RLock())  # for the run, and the work that belongs to it
        self._is_there = True
        self._refused: set[str] = set()  # the tags in messages of other runs, since the last look
        self._takers: set[int] = set()  # the nodes of the fences for which resources refused this member's, since then
        self._taken = 0  # the greatest count of these fences
        self._epoch: int | None = None  # of this node, in the last view
        self._why: str | None = None  # why a reset is wanted

    @property
    def begun(self) -> int | None:
        """The epoch of the present work, None if there is no work."""
        return self._starts.begun

    @property
    def run(self) -> Run | None:
        """The run that the group is in, None while a member is not through. It may have ended by the time you have read it:
        change the work only `in_run`."""
        return self._run

    @property
    def fence(self) -> Fence | None:
        """The fence of the run. None while there is no run, and also from an update of a version without fences until the next
        reset. Read it from the run of `in_run`, so that work and fence belong to one start."""
        run = self._run
        return run.fence if run else None

    @contextmanager
    def in_run(self, tag: str | None = None, wait: float = 0.0) -> Iterator[Run]:
        """While the body runs, no begin and no other `in_run` runs in between. `tag` is the tag of a message: the body runs
        only if the message belongs to this run. Raises OutOfRun for the tag of another run, and if there is no run after
        `wait` seconds. For an unknown tag the member looks, since this run may be over. Raises the exception that ended the
        member's own thread, if there is one. Keep the body short, and don't wait for others in it. In a thread with an event
        loop it raises InLoop: use `resetd_client.aio`."""
        refuse_in_loop("in_run")
        with self._changes:
            self._changes.wait_for(lambda: self._run is not None, wait)
            run = self._run
            if self._fault:
                raise self._fault
            if run is None:
                raise OutOfRun("this member has no run at present")
            if tag is not None and not run.takes(tag):
                self._refuse(tag)
                raise OutOfRun(f"the tag {tag} belongs to another run")
            yield run

    def reset(self, why: str) -> None:
        """Makes the looking thread ask for a reset of the member's node, immediately or with its next look. May be called from
        any thread and from a signal handler. Several calls before that count as one."""
        self._why = why
        self._bell.ring()

    def note_overtaken(self, nodes: Iterable[int], count: int) -> None:
        """Reports that a resource has refused the member's fence, and stores a fence with these nodes and this count. The
        member then looks. If it may still talk after that look, and one of the nodes is connected with it, it asks for a
        reset: a start of its own group has the resource. Otherwise another group has it. If the coordinator's store has
        settled fewer steps than the count implies, a reset would not help: the thread that looks ends with StoreWentBack.
        May be called from any thread."""
        with self._changes:
            self._takers |= set(nodes)
            self._taken = max(self._taken, count)
        self._bell.ring()

    def look(self) -> View:
        """Queries `show`, begins, confirms and asks for resets until nothing more is due, and returns the last view. `run` is
        then the run that the group is in, or None while a member is not through. After Away, call it again. Refused, Faulted
        and StoreWentBack need a person."""
        if self._ask_wanted_reset():
            self._await_view()
        for _ in range(MOST_TURNS):
            view = self._view()
            row = view.node(self.node)
            self._note_presence(row is not None)
            self._epoch = row.epoch if row else None
            if row is None or not self._advance(view, row):
                return view
            self._await_view()
        raise Away(f"node {self.node} had a new epoch at every look")

    def follow(self, wakes: Wakes, every: float = LOOK_SECONDS, after: Callable[[View], None] | None = None) -> None:
        """Looks immediately, at each wake-up, after this many seconds, and after each absence of the coordinator, until no more
        wake-ups will come or `stop` is called. `after` receives each view."""
        check_every(every)
        while (view := self._look_patiently()) is not None:
            if after:
                after(view)
            if self._wait(wakes, self.wait_seconds(every), self._sooner) is Wake.END:
                return

    def wait_seconds(self, every: float) -> float:
        """Returns how long to wait for a wake-up. The wait is shorter while the group is not through."""
        return self._next_wait(self._run is not None or not self._is_there, every)

    def __enter__(self) -> Member:
        """Starts a thread that follows. Raises ValueError if `every` is not positive."""
        check_every(self._every)
        self._thread = threading.Thread(target=self._follow_alone, name=f"member {self.node}", daemon=True)
        self._thread.start()
        return self

    def __exit__(self, kind: object, *_: object) -> None:
        """Stops the thread. Raises the exception that ended it before, unless the body raised one."""
        self.stop()
        if self._thread:
            self._thread.join()
        self._set_run(None)
        if self._fault and kind is None:
            raise self._fault

    def _follow_alone(self) -> None:
        try:
            self.follow(self._wakes, self._every)
        except BaseException as fault:  # raised to the caller when the `with` ends
            self._fault = fault
            self._report(f"node {self.node}: the member has stopped following the coordinator because of {fault!r}")
            self._set_run(None)

    def _sooner(self, began: float) -> float:
        if self._why is not None:
            return began
        return began + DOUBT_SECONDS if self._refused or self._takers else math.inf

    def _refuse(self, tag: str) -> None:
        if len(self._refused) < MOST_REFUSED:
            self._refused.add(tag)
        self._bell.ring()

    def _ask_wanted_reset(self) -> bool:
        """Asks for the wanted reset, if the member's node still has the epoch of the last view. Returns whether it asked."""
        why, self._why = self._why, None
        if why is not None:
            self._ask_reset(self.node, why, self._epoch)
        return why is not None

    def _advance(self, view: View, row: Node) -> bool:
        """Does what the view requires. Returns whether to look again."""
        due = self._starts.due(view, row)
        self._shelf.keep()
        run = self._run_in(view, row) if due is Due.TALK else None
        heard = self._set_run(run)
        is_parted = run is not None and any(are_parted(run.tag, tag) for tag in heard.tags)
        is_overtaken = run is not None and any(node.node in heard.takers for node in view.connected(self.node))
        if run is not None:
            self._check_store(view, heard.taken)
        if due is Due.BEGIN:
            self._begin_anew(view, row)
        elif is_parted:
            self._ask_reset(self.node, "a connected member is in another run, although it sees the same view", row.epoch)
        elif is_overtaken:
            self._ask_reset(self.node, "another run of its group has taken over the resource that they share", row.epoch)
        elif due is Due.RESET:
            self._ask_reset(self.node, self._starts.why(row), row.epoch)
        else:
            self._asked -= {self.node} if run else set()
            self._foresee(view)
            return False
        self._waits = 0
        return True

    def _run_in(self, view: View, row: Node) -> Run:
        return Run(row.epoch, self._starts.tag(view, self._word), self._starts.fence(self._word, self._generation))

    def _begin_anew(self, view: View, row: Node) -> None:
        """Ends the run: when it returns, no work `in_run` is in progress, and none will begin."""
        self._starts.note_begin()
        if self._work is Work.PARTS or self._work is Work.WHOLE and self._shelf.may_say_begun(row.epoch):
            self._shelf.keep(is_synced=True)
        self._begin(row.epoch)
        self._starts.note_begun(row.epoch)
        self._shelf.write()
        self._confirm({self.node: row.epoch}, self._foresee, view)

    def _foresee(self, view: View) -> None:
        """Adds the party that the view shows to the history, while it waits for others or for its confirm."""
        self._starts.foresee(view)
        self._shelf.write()
        self._shelf.keep()

    def _check_store(self, view: View, count: int) -> None:
        """Raises StoreWentBack. A pushed view may be older than the look that brought the count: in that case it looks again."""
        if count > count_of(self._generation, view.settled):
            check_store(count, self._generation, self.port.show().settled)

    def _set_run(self, run: Run | None) -> Heard:
        """Sets the present run. Returns what was learned about others since the last look."""
        with self._changes:
            before, self._run = self._run, run
            heard = Heard(self._refused, self._takers, self._taken)
            self._refused, self._takers, self._taken = set(), set(), 0
            self._changes.notify_all()
        if run is None and before is not None:
            self._on_run(None)
        elif run is not None and (before is None or not is_one_run(before, run)):
            self._on_run(run)
        return heard

    def _served_node(self) -> int:
        return self.node

    def _note_presence(self, is_there: bool) -> None:
        if is_there != self._is_there:
            self._report(f"node {self.node} {'exists again' if is_there else 'does not exist'}")
        if not is_there:
            self._set_run(None)
        self._is_there = is_there


def is_one_run(before: Run, after: Run) -> bool:
    """Returns whether a member is in the same run as before, even if others have left."""
    return before.epoch == after.epoch and (before.takes(after.tag) or before.tag == after.tag == "")
