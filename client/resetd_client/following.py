"""The base class of objects that look at a coordinator repeatedly, until they are stopped."""

from __future__ import annotations

import math
import random
import time
from collections.abc import Callable, Mapping, Sequence
from contextlib import suppress

from .at_front import AtFront
from .answers import Away, NotTaken, Outcome, Refusal, Refused
from .bell import Bell
from .changes import Changes, wait_for
from .errors import BadWords
from .newest import Past
from .orders import Order, Orders, warn
from .port import Port, patiently
from .signals import Clock, Wake, Wakes
from .view import View

LOOK_SECONDS = 30.0  # between two looks, if nothing wakes it
STOP_SECONDS = 0.1  # between two checks for a `stop`, while it waits for wake-ups that have no descriptor
FIRST_WAIT = 0.01  # seconds between looks while others are not through: nothing wakes a member when another one confirms
MOST_WAITS = 20  # at which that wait, longer by 1.3 each time, stops growing: about 2 seconds
PUSH_SECONDS = 1.0  # to wait for a view that the proxy pushes after an order
REPORTED_SECONDS = 2.0  # between looks while others are not through, if the proxy reports each change
PAST_SECONDS = 30.0  # for which all answering addresses may show the past, until one reset is asked for to find out
DOUBT_SECONDS = 0.1  # between a message of another run and the look for it: more such messages cause no more looks


class Stopped(Exception):
    """`stop` was called."""


def check_every(seconds: float) -> None:
    """Raises BadWords unless this time between two looks is a positive number."""
    if not seconds > 0:
        raise BadWords(f"the time between two looks must be more than 0 seconds, not {seconds}")


class Following:
    """Looks, waits for a wake-up, and looks again. A subclass defines how to look and how long to wait."""

    port: Port

    def __init__(self, orders: Orders | AtFront, told: Callable[[str], None] = warn) -> None:
        self.orders, self._report = orders, told
        self._at_proxy = orders if isinstance(orders, AtFront) else None
        self.past_seconds = PAST_SECONDS
        self._settled = 0  # the number of steps in the last view
        self._bell = Bell()
        self._is_stopping = False  # no lock, because a signal handler may set it
        self._waits = 0  # consecutive looks in which the group was not through
        self._asked: set[int] = set()  # nodes for which a reset was asked for, and none of which has talked since

    def look(self) -> View:
        """Queries `show`, and does everything that is due."""
        raise NotImplementedError

    def stop(self) -> None:
        """Ends `follow`, immediately or after the answer that it is waiting for. May be called from any thread and from a
        signal handler."""
        self._is_stopping = True
        self._bell.ring()

    def _look_patiently(self) -> View | None:
        """Looks, and repeats that while the coordinator is away. Returns None once `stop` was called."""
        wait, is_reported, past = 0.1, False, time.monotonic() + self.past_seconds
        while not self._is_stopping:
            try:
                return self.look()
            except Stopped:
                return None
            except Away as away:
                if not is_reported:
                    self._report(f"{away}; trying again")
                if not isinstance(away, Past):
                    past = time.monotonic() + self.past_seconds
            is_reported = True
            if time.monotonic() >= past:
                past = math.inf
                self._find_out()
            self._wait(Clock(), wait * random.uniform(0.75, 1.25))
            wait = min(wait * 1.5, 2.0)
        return None

    def _find_out(self) -> None:
        """Asks for one reset of a node that it serves: an address that carries the order out does not show the past. An old
        coordinator carries out nothing; then the answer is awaited only as long as the port waits."""
        node = self._served_node()
        self._report(f"node {node}: every address that answers shows fewer steps than were seen before: asking for a reset, to find out "
                     "which address serves the store")
        with suppress(Away):
            raise_unless(self.orders.order_all([{"op": "reset", "node": node}]), {Refusal.UNKNOWN_NODE})

    def _served_node(self) -> int:
        """Returns a node for which it gives orders."""
        raise NotImplementedError

    def _wait(self, wakes: Wakes, seconds: float, sooner: Callable[[float], float] = lambda began: math.inf,
              changes: Changes | None = None) -> Wake:
        """Waits for a wake-up, at most this many seconds, or until `stop` is called. When the bell rings or files change,
        `sooner` may shorten the wait: it gets the time at which the wait began, and returns the time at which it ends."""
        began = time.monotonic()
        while True:
            self._bell.hush()
            if self._is_stopping:
                return Wake.END
            left = min(began + seconds, sooner(began)) - time.monotonic()
            descriptors = getattr(wakes, "descriptors", None)
            wake = wakes.wait(0.0 if descriptors else max(0.0, min(left, STOP_SECONDS)))
            if wake is not Wake.QUIET or left <= 0:
                return wake
            if descriptors:
                wait_for([[self._bell.fileno()], descriptors(), changes.descriptors() if changes else []], left)

    def _next_wait(self, is_through: bool, every: float) -> float:
        """Returns how long to wait for a wake-up. The wait is shorter while the group is not through, because nothing wakes a
        member when another one confirms; it grows each time, because a member that is down delays the others."""
        self._waits = 0 if is_through else min(self._waits + 1, MOST_WAITS)
        if not is_through and self._at_proxy and self._at_proxy.descriptors():
            return min(every, REPORTED_SECONDS)
        return every if is_through else min(every, FIRST_WAIT * 1.3 ** self._waits)

    def _view(self) -> View:
        """Returns the view that the proxy has pushed after the last order, unless it was used already; otherwise queries one."""
        view = self._at_proxy.take() if self._at_proxy else None
        if view is None or view.settled < self._settled:
            view = self.port.show()
        self._settled = view.settled
        return view

    def _await_view(self) -> None:
        """Waits, after an order, until the proxy has pushed a view that includes it."""
        if self._at_proxy:
            self._at_proxy.await_view(PUSH_SECONDS)

    def _confirm(self, epochs: Mapping[int, int], foresee: Callable[[View], None], view: View) -> None:
        """Confirms epochs of nodes, however long the coordinator is away. While the confirms are on their way, it calls
        `foresee` with the view that led to them, and with each view that the proxy pushes. It is not an error if an epoch was
        already confirmed, or if a node was removed or went back meanwhile: the next look finds that. Raises Refused for any
        other refusal, and Stopped."""
        orders: list[Order] = [{"op": "confirm", "node": node, "epoch": epoch} for node, epoch in epochs.items()]
        if not orders:
            return
        passed = {Refusal.BAD_EPOCH, Refusal.UNKNOWN_NODE}
        if isinstance(self.orders, AtFront):
            self._order_at_proxy(self.orders, orders, passed, foresee, view)
        else:
            self._order(self.orders, orders, passed)
            foresee(view)

    def _ask_reset(self, node: int, why: str, epoch: int | None = None) -> None:
        """Asks for a reset, and logs only the first in a row. It is not an error if the node was removed meanwhile. Raises like
        `_confirm`."""
        if node not in self._asked:
            self._report(f"node {node}: {why}: asking for a reset")
        self._asked.add(node)
        passed = {Refusal.UNKNOWN_NODE, Refusal.BAD_EPOCH}
        if isinstance(self.orders, AtFront):
            seen = {} if epoch is None else {"epoch": epoch}
            self._order_at_proxy(self.orders, [{"op": "reset", "node": node, **seen}], passed)
        else:
            self._order(self.orders, [{"op": "reset", "node": node}], passed)

    def _order(self, book: Orders, orders: list[Order], passed: set[Refusal]) -> None:
        """Carries out numbered orders of one client. The refusals in `passed` do not stop it."""
        while orders:
            outcomes = patiently(lambda: self._unless_stopped(book.order_all, orders))
            raise_unless(outcomes, passed)
            orders = orders[len(outcomes):]

    def _order_at_proxy(self, at_proxy: AtFront, orders: list[Order], passed: set[Refusal],
                        on_view: Callable[[View], None] = lambda view: None, view: View | None = None) -> None:
        """Carries out orders without numbers. The refusals in `passed` do not stop it."""
        outcomes = patiently(lambda: self._unless_stopped(lambda sent: at_proxy.order_all(sent, on_view=on_view, view=view), orders))
        raise_unless(outcomes, passed)

    def _unless_stopped(self, call: Callable[[list[Order]], list[Outcome]], orders: list[Order]) -> list[Outcome]:
        if self._is_stopping:
            raise Stopped
        return call(orders)


def raise_unless(outcomes: Sequence[Outcome], passed: set[Refusal]) -> None:
    """Raises the first outcome that is neither a reply nor one of the refusals in `passed`."""
    for outcome in outcomes:
        if isinstance(outcome, NotTaken) and not (isinstance(outcome, Refused) and outcome.refusal in passed):
            raise outcome
