"""A member's orders at the proxy, and its wake-ups, over one connection.

The proxy numbers a member's orders (`confirm` and `reset` without a client and a number). So the member needs no client and
no order book, and writes nothing to the disk for an order. Both orders may be sent twice without harm: a confirm names its
epoch, and so does a reset, which the proxy passes on only while the node still has the epoch that the sender saw.
"""

from __future__ import annotations

from collections.abc import Callable, Sequence

from . import files
from .answers import Away, Fault, Faulted, Garbled, NotTaken, Outcome, Refusal, Refused, members_of, reply_of
from .errors import BadWords
from .limits import check_order
from .orders import Order, Orders, warn
from .port import Port
from .signals import Clock, Follower, Wake, Wakes
from .view import View
from .watching import Watched

FIRST_VIEW_SECONDS = 1.0
LOST_COUNT = frozenset({Refusal.OUT_OF_TURN, Refusal.NUMBER_REUSED})  # of the proxy's own number, which the proxy finds again by itself


class EarlierFront(NotTaken):
    """The proxy does not know orders without a number, or resets that name an epoch, because it is older than this library.
    Needs a person: upgrade the proxy first."""

    name = "EarlierFront"

    def __init__(self) -> None:
        super().__init__("the proxy is older than this library and does not know the library's orders: upgrade the proxy first")


class AtFront:
    """Replaces Orders for a Member or a Gateway, and also delivers its wake-ups. Only the following thread may use it. Its
    folder has the member's files, and only one process at a time can hold it."""

    def __init__(self, port: Port, folder: str, *, held_seconds: float = 0.0) -> None:
        """Waits at most `held_seconds` for another process to release the folder. Raises BadWords if an address is not
        one of the proxy, and Held if the folder is still held."""
        if not all(address.is_front for address in port.addresses):
            raise BadWords("orders without a number need an address of the proxy (unix:PATH, tls:HOST:PORT)")
        self.port, self.folder = port, folder
        self._lock = files.hold(folder, held_seconds)
        self._watched = Watched(port)

    def close(self) -> None:
        """Ends the connection, and releases the folder."""
        self._watched.close()
        self._lock.close()

    def __enter__(self) -> AtFront:
        return self

    def __exit__(self, *_: object) -> None:
        self.close()

    def order_all(self, orders: Sequence[Order], *, on_view: Callable[[View], None] = lambda view: None,
                  view: View | None = None) -> list[Outcome]:
        """Sends orders together, and returns the outcome of each; a refused order does not stop those after it. Until the
        answers arrive it calls `on_view` with `view`, and then with each view that the proxy pushes. After Away, call it
        again with the same orders. Raises Away, BadWords for a number out of its range (before anything is sent),
        EarlierFront, Garbled and Untrusted."""
        for order in orders:
            check_order(order)
        return [self._outcome(line) for line in self._watched.ask_many(orders, on_view, view)]

    def _outcome(self, line: str) -> Outcome:
        try:
            reply = reply_of(members_of(line))
        except Refused as refused:
            if refused.refusal in LOST_COUNT:
                raise Away(f"the proxy has lost its order number: {refused}") from refused
            return refused
        except NotTaken as fault:
            if isinstance(fault, Garbled):
                raise
            if isinstance(fault, Faulted) and fault.fault is Fault.BAD_REQUEST:
                raise EarlierFront from fault
            return fault
        self._watched.note_order(reply.step)
        return reply

    # as wake-ups

    def wait(self, seconds: float) -> Wake:
        """Waits until a view is pushed that differs from the last one (see `Watched.wait`)."""
        return self._watched.wait(seconds)

    def descriptors(self) -> list[int] | None:
        """Returns the descriptors to wait for (see `Watched.descriptors`)."""
        return self._watched.descriptors()

    # as a look

    def take(self) -> View | None:
        """Returns the newest pushed view once, if it is newer than this member's last order. Without a connection, connects and
        waits briefly for the first view."""
        if self._watched.descriptors() is None:
            self._watched.wait(FIRST_VIEW_SECONDS)
        return self._watched.take()

    def await_view(self, seconds: float) -> None:
        """Waits at most this many seconds until such a view has been pushed."""
        self._watched.await_view(seconds)


def orders_of(port: Port, client: int | None, folder: str, *, held_seconds: float = 0.0,
              told: Callable[[str], None] = warn) -> Orders | AtFront:
    """Returns an AtFront if every address is one of the proxy, and otherwise the numbered Orders of a client (1 to 16), for a Member
    or a Gateway. Raises BadWords if a client is needed and is None, and whatever the two classes raise."""
    if all(address.is_front for address in port.addresses):
        return AtFront(port, folder, held_seconds=held_seconds)
    if client is None:
        raise BadWords("orders at the server's own port need a client from 1 to 16; only orders at the proxy (unix:PATH, tls:HOST:PORT) need none")
    return Orders(port, client, folder, recovers=True, held_seconds=held_seconds, told=told)


def wakes_of(port: Port, signals: str | None = None, orders: Orders | AtFront | None = None) -> Wakes:
    """Returns the wake-ups for a member: the connection of `orders` if it orders at the proxy; else a Follower of the file
    `signals`, if given; else a Watched if the port is one of the proxy; else a Clock."""
    if isinstance(orders, AtFront):
        return orders
    if signals is not None:
        return Follower(signals)
    if port.is_front:
        return Watched(port)
    return Clock()
