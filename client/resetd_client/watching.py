"""Watching through the proxy: it pushes a view at each change, and every 15 seconds so that a dead connection is noticed."""

from __future__ import annotations

import json
import select
import socket
import ssl
import time
from collections.abc import Callable, Iterator, Sequence
from contextlib import suppress

from .address import Address, away
from .answers import Away, Garbled, NotTaken, members_of
from .errors import BadWords
from .newest import Past
from .port import Port, Request, line_of
from .signals import Wake
from .view import View

SILENCE_SECONDS = 45.0  # after this many seconds without a line, the proxy or the connection to it counts as dead
REPLY_SECONDS = 30.0  # the proxy's time limit for the server's answer
FIRST_PAUSE, PAUSE = 0.1, 2.0  # seconds between two attempts to connect, at first and at most
VIEW = '{"accepted":'  # the beginning of a view's line
MOST_BYTES = 1 << 20  # of a line: one with 64 nodes and 128 links has about ten thousand


class Pushed:
    """One connection to the proxy, over which it pushes views."""

    def __init__(self, address: Address, seconds: float) -> None:
        """`seconds` is the time limit for connecting. Raises Away and Untrusted."""
        self.address, self._rest, self.is_over = address, b"", False
        self._is_answered = False  # whether the first line has arrived, which answers `watch`
        self._seconds = seconds
        self.awaited, self.answers = 0, list[str]()  # answers to the orders that were sent over this connection
        self.least = 0  # the step of the last order carried out over it: a view with fewer settled steps is older
        self._connection = address.connect(seconds)
        try:
            self._connection.sendall(line_of({"op": "watch"}))
            self._connection.setblocking(False)
        except OSError as fault:
            self._connection.close()
            raise address.refusal() or away(address, fault) from fault
        self.heard = time.monotonic()

    def close(self) -> None:
        self._connection.close()

    def fileno(self) -> int:
        return self._connection.fileno()

    def send(self, requests: Sequence[Request]) -> None:
        """Sends orders. Their answers arrive between the views. Raises Away and TooLong."""
        text = b"".join(line_of(request) for request in requests)
        try:
            self._connection.settimeout(self._seconds)
            self._connection.sendall(text)
            self._connection.setblocking(False)
        except OSError as fault:
            raise away(self.address, fault) from fault
        self.awaited, self.answers = len(requests), []

    def views(self, seconds: float) -> list[View]:
        """Returns the views that arrive within this many seconds; then `is_over` is True if no more will arrive. Raises Away
        after a silence, NotTaken (Garbled, Faulted) if a line is not a view, and Untrusted."""
        return [view_of(line, str(self.address)) for line in self._lines(seconds)]

    def newest(self, seconds: float) -> View | None:
        """Like `views`, but returns only the newest one, because the others are out of date."""
        lines = self._lines(seconds)
        for line in lines[:-1]:
            if not line.startswith(VIEW):
                view_of(line, str(self.address))  # a line that is no view: it raises its fault
        return view_of(lines[-1], str(self.address)) if lines else None

    def _lines(self, seconds: float) -> list[str]:
        """Returns the lines that have arrived, except the answers to orders."""
        silence = self.heard + SILENCE_SECONDS - time.monotonic()
        if self._is_ready(max(0.0, min(seconds, silence))):
            self._read()
        elif silence <= 0:
            raise Away(f"{self.address}: the proxy has sent no line for {SILENCE_SECONDS:g} s")
        *lines, self._rest = self._rest.split(b"\n")
        if self._is_answered or len(lines) > 1:
            lines = [line for place, line in enumerate(lines) if not self._takes(line, place)]
        self._is_answered = self._is_answered or bool(lines)
        if self.is_over and not self._is_answered and (refusal := self.address.refusal()):
            raise refusal
        if len(self._rest) > MOST_BYTES:
            raise Garbled(self._rest[:100].decode("utf-8", "replace"), str(self.address))
        return [line.decode("utf-8", "replace") for line in lines]

    def _takes(self, line: bytes, place: int) -> bool:
        """Accepts the answer to an order. The first line of the connection answers `watch`."""
        if line.startswith(VIEW.encode()) or not self.awaited or not (self._is_answered or place):
            return False
        self.awaited -= 1
        self.answers.append(line.decode("utf-8", "replace"))
        return True

    def _is_ready(self, seconds: float) -> bool:
        """Returns whether something can be read. TLS may already have buffered what the system delivered."""
        if isinstance(self._connection, ssl.SSLSocket) and self._connection.pending():
            return True
        return bool(select.select([self._connection], [], [], seconds)[0])

    def _read(self) -> None:
        """Reads everything that has arrived."""
        while not self.is_over and len(self._rest) <= MOST_BYTES:
            try:
                read = self._connection.recv(65536)
            except (BlockingIOError, ssl.SSLWantReadError):
                return
            except OSError:
                read = b""
            self.is_over = not read
            self._rest += read
            self.heard = time.monotonic()


class Watched:
    """Wakes its waiters within milliseconds of a change, on any host, if one of a port's addresses is one of the proxy. It reconnects
    by itself, and then assumes that something has changed."""

    def __init__(self, port: Port, seconds: float = 5.0) -> None:
        """`seconds` is the time limit for connecting. Raises BadWords if none of the addresses is one of the proxy."""
        self._newest = port.newest
        self._addresses = [address for address in port.addresses if address.is_front]
        if not self._addresses:
            raise BadWords("watching needs an address of the proxy (unix:PATH or tls:HOST:PORT), and there is none")
        self._pushed: Pushed | None = None
        self._seconds, self._turn = seconds, 0
        self._pause, self._not_before = FIRST_PAUSE, 0.0
        self._seen: View | None = None
        self._new: View | None = None  # the newest view, until `take` returns it
        self._is_unreported = False  # whether that view arrived after the last wait

    def take(self) -> View | None:
        """Returns the newest view once, if it is newer than all orders that were sent over the connection."""
        view = self._new if self.has_view else None
        self._new, self._is_unreported = None, False
        return view

    @property
    def has_view(self) -> bool:
        """Returns whether `take` has a view that is newer than all orders that were sent over the connection."""
        return self._new is not None and self._pushed is not None and self._new.settled >= self._pushed.least

    def await_view(self, seconds: float) -> None:
        """Waits until `take` has a view, at most this many seconds. Does not wait for a connection."""
        until = time.monotonic() + seconds
        while self._pushed is not None and not self.has_view and (left := until - time.monotonic()) > 0:
            self._wait_for_view(left)

    def ask_many(self, requests: Sequence[Request], on_view: Callable[[View], None] = lambda view: None,
                 view: View | None = None) -> list[str]:
        """Returns the answers to orders, sent over this connection in this sequence. Until they arrive, it calls `on_view` with
        `view`, and then with each pushed view. Raises Away, and whatever `wait` raises; after that an order may or may not
        have been carried out."""
        try:
            pushed = self._connected()
            pushed.send(requests)
            if view is not None:
                on_view(view)
            until = time.monotonic() + REPLY_SECONDS
            while pushed.awaited:
                if (each := pushed.newest(until - time.monotonic())) is not None:
                    with suppress(Past):  # an order that is carried out there makes the address count
                        self._take(pushed, each)
                        on_view(each)
                if pushed.awaited and (pushed.is_over or time.monotonic() > until):
                    raise Away(f"{pushed.address}: the proxy sent no answer in time")
            return pushed.answers
        except BaseException as fault:
            self.close()
            if isinstance(fault, Away):
                self._put_off()
            raise

    def note_order(self, step: int) -> None:
        """Records that an order sent over the connection was carried out as this step."""
        if self._pushed is not None:
            self._pushed.least = max(self._pushed.least, step)
            self._newest.note_order(self._pushed.address, step)

    def _connected(self) -> Pushed:
        """Returns the connection, and connects first if there is none. Raises Away."""
        if self._pushed is None:
            self._connect(self._seconds)
        if self._pushed is None:
            raise Away(f"{self._address}: there is no connection to the proxy")
        return self._pushed

    def _take(self, pushed: Pushed, view: View) -> None:
        """Raises Past."""
        self._newest.take(pushed.address, view)
        self._note(view)

    def _note(self, view: View) -> None:
        """Stores a view if it differs from the last one."""
        if view != self._seen:
            self._seen = self._new = view
            self._is_unreported = True

    @property
    def _address(self) -> Address:
        return self._addresses[self._turn % len(self._addresses)]

    def wait(self, seconds: float) -> Wake:
        """Waits until a view arrives that differs from the last one, at most this many seconds. Never returns END. Raises
        NotTaken (Garbled, or Faulted if the policy does not allow `watch`) and Untrusted."""
        until = time.monotonic() + seconds
        while True:
            if not self._is_unreported:
                self._wait_for_view(until - time.monotonic())
            if self._is_unreported:
                self._is_unreported = False
                return Wake.CAME
            if time.monotonic() >= until:
                return Wake.QUIET

    def descriptors(self) -> list[int] | None:
        """Returns the descriptors to wait for; None while there is no connection, so that `wait` has to be called."""
        return None if self._pushed is None else [self._pushed.fileno()]

    def close(self) -> None:
        """Closes the connection."""
        if self._pushed is not None:
            self._pushed.close()
            self._pushed = None

    def _wait_for_view(self, seconds: float) -> None:
        """Waits for a view, at most this many seconds, and keeps the newest. If the proxy is away or shows the past, the
        next address is tried."""
        try:
            if self._pushed is None:
                self._connect(seconds)
            if self._pushed is not None:
                self._receive(self._pushed, max(0.0, seconds))
        except Away:
            self.close()
            self._put_off()
        except BaseException:
            self.close()
            raise

    def _receive(self, pushed: Pushed, seconds: float) -> None:
        view = pushed.newest(seconds)
        if view is not None:
            self._take(pushed, view)
            self._pause = FIRST_PAUSE
        if pushed.is_over:
            is_unreported, new, seen = self._is_unreported, self._new, self._seen
            self.close()
            self._put_off()
            if view is not None:  # it arrived before the end
                self._is_unreported, self._new, self._seen = is_unreported, new, seen

    def _connect(self, seconds: float) -> None:
        """Connects to the next address, once its pause is over. Waits at most this many seconds."""
        left = self._not_before - time.monotonic()
        if left > 0:
            time.sleep(max(0.0, min(left, seconds)))
        if time.monotonic() >= self._not_before:
            self._pushed = Pushed(self._address, self._seconds)

    def _put_off(self) -> None:
        """Records that the proxy was away. The next address is tried after a growing pause, and its first view counts as new."""
        self._turn += 1
        self._seen = self._new = None
        self._is_unreported = False
        self._not_before = time.monotonic() + self._pause
        self._pause = min(2 * self._pause, PAUSE)


def view_of(line: str, where: str) -> View:
    """Returns the view in a pushed line. Raises NotTaken (Garbled, Faulted, Refused) and NotNow."""
    answer = members_of(line, where)
    try:
        return View.of(answer)
    except (KeyError, ValueError, TypeError, IndexError) as fault:
        raise Garbled(json.dumps(answer), where) from fault


def views(port: Port, seconds: float = 5.0) -> Iterator[View]:
    """Yields the views that the proxy at one of the port's addresses pushes over one connection: the present view, and one at
    each change. Raises Away when the connection ends, or can't be opened within this many seconds; NotTaken; Untrusted; and
    BadWords if none of the addresses is one of the proxy."""
    proxies = [address for address in port.addresses if address.is_front]
    if not proxies:
        raise BadWords("watching needs an address of the proxy (unix:PATH or tls:HOST:PORT), and there is none")
    pushed = Pushed(proxies[0], seconds)
    try:
        seen: View | None = None
        while not pushed.is_over:
            for view in pushed.views(SILENCE_SECONDS):
                if view != seen:
                    yield view
                seen = view
        raise Away(f"{proxies[0]}: the proxy closed the connection")
    finally:
        pushed.close()
