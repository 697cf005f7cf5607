"""The orders of one client, numbered so that each is carried out once, and the recovery of a lost count."""

from __future__ import annotations

import itertools
import json
import logging
import os
import threading
from collections.abc import Callable, Iterator, Sequence
from dataclasses import dataclass, field
from typing import Any, NamedTuple

from . import files
from .answers import CARRIED_OUT, Faulted, Garbled, NotTaken, Outcome, Refusal, Refused, Reply, reply_of
from .errors import BadWords, ResetdError, Unreadable
from .limits import CLIENTS, WORDS, check_order
from .port import AT_ONCE, Port, line_of

Order = dict[str, Any]

LOGGER = logging.getLogger("resetd_client")
MOST_TRIED = 200_000  # numbers that are tried to find a lost count: this takes some seconds
FIRST_PROBES, PROBES = 4, 1_024  # of these over one connection, at first and at most
MOST_RECOVERIES = 3  # recoveries of the count in one series: others may order as the same client meanwhile
NEXT_IS = frozenset({Refusal.BAD_EPOCH, Refusal.UNKNOWN_NODE})


class CountLost(Refused):
    """The order's number is neither the client's last nor the next one, or it is the last one with another order: the client
    and the coordinator disagree about the client's numbers. `Orders.recover` finds the right number. Needs a person, who
    knows whether the order may be carried out twice."""


class CountNotFound(ResetdError):
    """None of the numbers that were tried is the client's last one. Needs a person."""


def warn(text: str) -> None:
    """The default of `told`: logs a warning with the logger `resetd_client`."""
    LOGGER.warning("%s", text, stacklevel=2)


class Kept(NamedTuple):
    """The number of the last accepted order, and the later orders that were sent and have no answer yet."""

    number: int
    pending: list[Order]


@dataclass
class Series:
    """Orders to be carried out one after another, and their results so far."""

    wanted: list[Order]
    outcomes: list[Outcome] = field(default_factory=list)
    recoveries: int = 0

    @property
    def rest(self) -> list[Order]:
        return self.wanted[len(self.outcomes):]

    @property
    def is_over(self) -> bool:
        return not self.rest or bool(self.outcomes) and isinstance(self.outcomes[-1], NotTaken)


class Orders:
    """The orders of one client. Its folder stores the orders that were sent last.

    Orders are stored with their numbers before they are sent. So after any failure they are sent again with the same
    numbers, and each is carried out once. Only one process at a time can hold a folder, and a client may have only one
    folder. If the folder is new, the client's count is found before the first order is sent.

    Any threads may share the object: each call waits for its turn, and gets the answers to its own orders. After Away, a
    thread calls again with the same orders and so continues, whatever other threads have ordered meanwhile.
    """

    def __init__(self, port: Port, client: int, folder: str, *, recovers: bool = False, held_seconds: float = 0.0,
                 told: Callable[[str], None] = warn) -> None:
        """`client` is 1 to 16. With `recovers`, a lost number is recovered and the order is sent once more: use it only for
        orders that may be carried out twice without harm. `held_seconds` is how long to wait for another process that holds
        the folder. `told` receives messages for a person; by default they are logged to `resetd_client`. Raises BadWords,
        Held, and Unreadable if the folder's file can't be read."""
        if client not in CLIENTS:
            raise BadWords(f"{client} is not a client's number: clients have the numbers 1 to {CLIENTS[-1]}")
        self.port, self.client, self.recovers, self.told = port, client, recovers, told
        self.folder = folder
        self._lock = files.hold(folder, held_seconds)
        self._path = os.path.join(folder, "order.json")
        self._turn = threading.RLock()  # for everything below: one thread at a time orders
        self._is_proved = False  # whether any answer to this process has confirmed the count
        self._owner: Series | None = None  # the series to which the orders without an answer belong
        self._of_thread = threading.local()  # the series that Away left unfinished in this thread
        try:
            text = files.read(self._path)
            self._is_known = bool(text)  # whether the count is known
            self._kept = self._read(text) if text else Kept(0, [])
        except BaseException:
            self._lock.close()
            raise

    @property
    def number(self) -> int:
        """The number of the last order that was sent and not refused."""
        kept = self._kept
        return kept.number + len(kept.pending)

    @property
    def unanswered(self) -> list[Order]:
        """The orders that were sent and have no answer yet."""
        return list(self._kept.pending)

    def close(self) -> None:
        """Releases the folder, after the call that another thread may be making."""
        with self._turn:
            self._lock.close()

    def __enter__(self) -> Orders:
        return self

    def __exit__(self, *_: object) -> None:
        self.close()

    def order(self, op: str, *, above: int = 0, **members: int) -> Reply:
        """Carries out an order, after any earlier one that has no answer yet; if that is the same order, it counts as this one.
        A reply to a new order must have a step above `above`: otherwise the order was carried out before, and the count
        differs from the coordinator's.

        After Away, call it again with the same order. Raises BadWords for a number out of its range, TooLong, CountLost,
        CountNotFound, Garbled and Untrusted; also Refused or Faulted, after which the next order gets the same number.
        """
        [outcome] = self.order_all([{"op": op, **members}], above=above)
        if isinstance(outcome, NotTaken):
            raise outcome
        return outcome

    def order_all(self, orders: Sequence[Order], *, above: int = 0) -> list[Outcome]:
        """Carries out orders in this sequence, each once; all except the first are sent together. Returns the result of each,
        up to and including the first refusal or fault: the orders after that one were not carried out. CARRIED_OUT replaces
        a reply that was lost.

        After Away, call it again with the same orders: it then continues. Raises BadWords for a number out of its range and
        TooLong (both before anything is sent or stored), CountLost, CountNotFound, Garbled and Untrusted.
        """
        wanted = [dict(order) for order in orders]
        for order in wanted:
            check_order(order)
            line_of(self._request(WORDS[-1], order))  # so that an order that is too long is not stored
        with self._turn:
            left: Series | None = getattr(self._of_thread, "series", None)
            series = self._of_thread.series = left if left is not None and left.wanted == wanted else Series(wanted)
            try:
                while not series.is_over:
                    self._go_on(series, above)
            except CountLost:
                self._of_thread.series = None
                raise
            self._of_thread.series = None
            return series.outcomes

    def settle(self) -> list[Outcome]:
        """Sends the orders again that have no answer, and returns the result of each, like `order_all`. Raises Away, CountLost,
        Garbled and Untrusted."""
        with self._turn:
            series = self._owner or Series(self.unanswered)
            before = len(series.outcomes)
            while self._kept.pending:
                self._send(series, 0)
            return series.outcomes[before:]

    def recover(self, most: int = MOST_TRIED, node: int | None = None) -> int:
        """Finds the number of this client's last order, stores it, and returns it. Drops an order that has no answer: `show`
        shows whether it was carried out. `node` is a node that the client may name, in case the proxy's policy allows it no
        other. Raises CountNotFound, Away, Garbled and Untrusted."""
        with self._turn:
            number = find_count(self.port, self.client, self.number, most, node)
            if self._is_known and number != self.number:
                self.told(f"client {self.client}: the last order had number {number}, not {self.number} as stored")
            self._note(number, [])
            return number

    def _go_on(self, series: Series, above: int) -> None:
        """Sends the next orders of a series, once the number is known and no other orders lack an answer."""
        if not self._is_known:
            self.recover(node=series.rest[0].get("node"))
        rest = series.rest[:AT_ONCE if self._is_proved else 1]
        if self._kept.pending and self._kept.pending != series.rest[:len(self._kept.pending)]:
            self._settle_others()
        had_no_answer = ", which had no answer at first," if self._kept.pending else ""
        if not self._kept.pending:
            self._note(self._kept.number, rest)
        self._owner = series
        try:
            self._send(series, above)
        except CountLost as lost:
            if not self.recovers or series.recoveries >= MOST_RECOVERIES:
                raise
            series.recoveries += 1
            self.told(f"client {self.client}: order {self._kept.number + 1}{had_no_answer} was refused ({lost}): looking for the number of the last order")
            self.recover(node=series.wanted[0].get("node"))

    def _settle_others(self) -> None:
        """Sends earlier orders again that have no answer. Logs a refused one and drops it."""
        others, number = self.unanswered, self._kept.number + 1
        try:
            for outcome in self.settle():
                if isinstance(outcome, NotTaken):
                    self.told(f"client {self.client}: the orders {others}, from number {number}, had no answer at first, "
                              f"and now the answer is {outcome}")
        except CountLost as lost:
            if not self.recovers:
                raise
            self.told(f"client {self.client}: the orders {others}, from number {number}, had no answer at first, "
                      f"and now the answer is {lost}: giving them up")
            self.recover(node=others[0].get("node"))

    def _send(self, series: Series, above: int) -> None:
        """Sends the stored orders, and records the result of each. If an order or a later one gets any answer except OutOfTurn,
        its number was used: so an earlier OutOfTurn means that the order was carried out before. A refused order frees its
        number and those after it."""
        (number, pending), done = self._kept, list[Outcome]()
        requests = [self._request(number + 1 + place, order) for place, order in enumerate(pending)]
        try:
            for place, answer in enumerate(self.port.ask_many(requests)):
                if isinstance(answer, Refused) and answer.refusal is Refusal.OUT_OF_TURN:
                    continue
                outcome = outcome_of(answer, above)
                is_of_the_count = not isinstance(outcome, Faulted)
                if place > len(done) and not is_of_the_count:
                    break
                self._is_proved = self._is_proved or is_of_the_count
                done += [CARRIED_OUT] * (place - len(done)) + [outcome]
                if isinstance(outcome, NotTaken):
                    pending = pending[:len(done)]
                    break
            if len(done) < len(pending):
                raise CountLost(Refusal.OUT_OF_TURN, "OutOfTurn")
        finally:
            self._note(number + sum(isinstance(outcome, Reply) for outcome in done), pending[len(done):])
            series.outcomes += done

    def _request(self, number: int, order: Order) -> Order:
        return {**order, "client": self.client, "number": number}

    def _note(self, number: int, pending: list[Order]) -> None:
        """Stores the number of the last accepted order, and the later orders that are being sent."""
        is_new = not self._is_known or (number, pending) != self._kept
        self._kept, self._is_known = Kept(number, pending), True
        if not pending:
            self._owner = None
        if is_new:
            first = pending[0] if pending else {}
            later = {"behind": pending[1:]} if len(pending) > 1 else {}
            (files.put if self.recovers else files.keep)(self._path, json.dumps(
                {"number": number + bool(pending), "answered": not pending, "order": first, **later}))

    def _read(self, text: str) -> Kept:
        try:
            kept = json.loads(text)
            if bool(kept["answered"]):
                return Kept(int(kept["number"]), [])
            return Kept(int(kept["number"]) - 1, [dict(order) for order in [kept["order"], *kept.get("behind", [])]])
        except (ValueError, KeyError, TypeError, AttributeError) as fault:
            raise Unreadable(self._path, " as an order: remove the file; the order number is then recovered") from fault


def outcome_of(answer: dict[str, Any] | NotTaken, above: int) -> Outcome:
    """Returns the result of an order. Raises CountLost if the answer belongs to another order, and the answer itself if it does
    not determine whether the order was carried out."""
    if isinstance(answer, Refused):
        if answer.refusal is Refusal.NUMBER_REUSED:
            raise CountLost(answer.number, answer.name) from answer
        return answer
    if isinstance(answer, NotTaken):
        if isinstance(answer, Faulted) and answer.fault is not None:
            return answer
        raise answer
    reply = reply_of(answer)
    if reply.step <= above:
        raise CountLost(Refusal.NUMBER_REUSED, f"NumberReused (the reply has step {reply.step}, which is older than the order)")
    return reply


def find_count(port: Port, client: int, near: int = 0, most: int = MOST_TRIED, named: int | None = None) -> int:
    """Finds the number of a client's last order (0 if it has none), without changing anything. It sends orders to confirm epoch
    0, which are always refused: as NumberReused if the number is that of the last order, as BadEpoch (or UnknownNode) if it
    is the next one, and otherwise as OutOfTurn. It tries at most this many numbers, from `near` outwards, and none above the
    number of steps. Raises CountNotFound, Away, Garbled and Untrusted."""
    view = port.show_any()  # it is used only for a node and a bound
    node = named or (view.nodes[0].node if view.nodes else 1)
    greatest = view.accepted + 1
    tried, at_once = 0, FIRST_PROBES
    numbers = outwards(near, greatest)
    while part := list(itertools.islice(numbers, min(at_once, most - tried))):
        probes = [{"op": "confirm", "client": client, "number": number, "node": node, "epoch": 0} for number in part]
        for number, answer in zip(part, port.ask_many(probes)):
            if not isinstance(answer, Refused):
                raise Garbled(f"a confirm of epoch 0 was answered with {answer}")
            if answer.refusal is Refusal.NUMBER_REUSED:
                return number
            if answer.refusal in NEXT_IS:
                return number - 1
            if answer.refusal is not Refusal.OUT_OF_TURN:
                raise answer
        tried, at_once = tried + len(part), min(16 * at_once, PROBES)
    raise CountNotFound(
        f"client {client}: {tried} numbers around {near}, up to {greatest}, were tried, and none is the number of the client's last or "
        f"next order: use a client that was never used, or try more numbers")


def outwards(near: int, greatest: int) -> Iterator[int]:
    """Yields the numbers from 1 to `greatest` at growing distance from `near`: the one after `near`, `near`, the one after the
    next, the one before, and so on."""
    above, below = max(near, 0) + 1, min(max(near, 0), greatest)
    while above <= greatest or below >= 1:
        if above <= greatest:
            yield above
        if below >= 1:
            yield below
        above, below = above + 1, below - 1
