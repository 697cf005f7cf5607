"""The administration port of a coordinator, or of the proxy before it, at one address or at the first of several that answers."""

from __future__ import annotations

import contextlib
import json
import random
import socket
import time
from collections.abc import Callable, Iterator, Mapping, Sequence
from typing import Any, TypeVar

from .address import Address, Credentials, addresses_of, default_address
from .answers import Away, Garbled, NotNow, NotTaken, members_of
from .errors import BadWords
from .newest import Newest
from .view import View

T = TypeVar("T")
Request = Mapping[str, Any]

MOST_BYTES = 512  # in a line
AT_ONCE = 64  # lines sent before their answers are read, so that neither end fills the other's buffers
REPLY_SECONDS = 20.0  # a server serves one connection at a time, and ends one that is silent


class TooLong(BadWords):
    """The request does not fit into a line and was not sent. Needs a person: the author of the calling program."""


class Port:
    """Sends requests to a coordinator over short connections, one after another, because the port serves one connection at a
    time.

    `addresses` are `HOST:PORT`, `unix:PATH` or `tls:HOST:PORT`, one address or several with commas between them. All must
    belong to one coordinator, and at most one of them serves at a time. They are tried in turn, beginning with the one that
    answered last; if one gives no answer, or answers Stopped, PendingFull or OutOfMemory, the next one is tried. If
    none is given, the address is this user's way to the coordinator of this host (`address.default_address`).

    A view from another address than that of the last view counts only if it has at least as many settled steps (newest.py).

    Any threads may share a Port: between two calls it keeps only the address that answered last, and the steps that it
    showed.
    """

    def __init__(self, addresses: str | None = None, seconds: float = REPLY_SECONDS, credentials: Credentials | None = None) -> None:
        """`seconds` is the time limit for one answer. `credentials` are for `tls:`, and default to those named in the
        environment. Raises BadWords for an invalid address, and Unreadable for a credentials file that can't be read."""
        self.addresses = addresses_of(default_address() if addresses is None else addresses, credentials)
        self.seconds = seconds
        self._last = 0
        self.newest = Newest()

    @property
    def is_front(self) -> bool:
        """Returns whether one of the addresses is one of the proxy, which also reports changes (`Watched`)."""
        return any(address.is_front for address in self.addresses)

    def ask(self, request: Request) -> dict[str, Any]:
        """Returns the members of the answer to one request. Raises Away (NotNow is a kind of it), NotTaken (Refused, Faulted or
        Garbled), TooLong and Untrusted, like all methods below that send requests."""
        return self._at_one(lambda address: self._members(address, request))

    def _members(self, address: Address, request: Request) -> dict[str, Any]:
        answer = members_of(self._answer(address, request), str(address))
        self._note_answer(address, answer)
        return answer

    def raw(self, request: Request) -> str:
        """Returns the line that answers one request, whatever it is. Raises Away if no line came, TooLong and Untrusted."""
        return self._at_one(lambda address: self._answer(address, request))

    def show(self) -> View:
        """Returns the nodes and links, as far as they are on disk. Also raises Garbled, and Past (an Away) if every address
        that answers shows an earlier moment than the last view."""
        return self._at_one(self._newest_view)

    def show_any(self) -> View:
        """Like `show`, from any address, even if it shows the past: only for uses that do not depend on the moment."""
        return self._at_one(self._view)

    def _newest_view(self, address: Address) -> View:
        view = self._view(address)
        self.newest.take(address, view)
        return view

    def _view(self, address: Address) -> View:
        answer = members_of(self._answer(address, {"op": "show"}), str(address))
        try:
            return View.of(answer)
        except (KeyError, ValueError, TypeError, IndexError) as fault:
            raise Garbled(json.dumps(answer)) from fault

    def _note_answer(self, address: Address, answer: Mapping[str, Any]) -> None:
        step = answer.get("step")
        if isinstance(step, int):
            self.newest.note_order(address, step)

    def resend(self) -> int:
        """Makes the server resend the packets in transit, and returns their number. Also raises Garbled."""
        answer = self.ask({"op": "resend"})
        try:
            return int(answer["count"])
        except (KeyError, ValueError, TypeError) as fault:
            raise Garbled(json.dumps(answer)) from fault

    def close(self) -> None:
        """Shuts the server down, after it has settled everything that it has accepted. Also raises Garbled."""
        if self.ask({"op": "close"}).get("kind") != "closed":
            raise Garbled("close")

    def ask_many(self, requests: Sequence[Request]) -> Iterator[dict[str, Any] | NotTaken]:
        """Returns the answers to many requests, in order, over few connections; each batch of lines is one write. If a server
        ends a connection between two lines, the rest is sent over the next one. Raises Away if a connection brings no
        answer, or "not now"."""
        done = 0
        while done < len(requests):
            rest = requests[done:]
            for answer in self._at_one(lambda address: self._answers(address, rest)):
                done += 1
                yield answer

    def _answers(self, address: Address, requests: Sequence[Request]) -> list[dict[str, Any] | NotTaken]:
        """Returns the answers over one connection, at least one, up to the first that is missing or "not now"."""
        answers: list[dict[str, Any] | NotTaken] = []
        try:
            for line in self._lines(address, requests):
                try:
                    answer = members_of(line, str(address))
                    self._note_answer(address, answer)
                    answers.append(answer)
                except NotTaken as not_taken:
                    answers.append(not_taken)
        except Away:
            if not answers:
                raise
        return answers

    def _answer(self, address: Address, request: Request) -> str:
        """Returns the line that answers one request, over a new connection."""
        return next(self._lines(address, [request]))

    def _lines(self, address: Address, requests: Sequence[Request]) -> Iterator[str]:
        """Yields the lines that answer requests over one connection. If some are missing, raises Away or Untrusted after the
        last one."""
        with address.connect(self.seconds) as connection:
            for place in range(0, len(requests), AT_ONCE):
                part = requests[place:place + AT_ONCE]
                began, came = time.monotonic(), 0
                with contextlib.suppress(OSError):
                    for line in spoken(connection, part):
                        came += 1
                        yield line
                if came < len(part):
                    is_silent = time.monotonic() - began >= self.seconds
                    if not came and not is_silent and (refusal := address.refusal()):
                        raise refusal
                    raise Away(f"{address}: " + (
                        f"connected, but got no answer for {self.seconds:g} s: another client may hold the server's only connection"
                        if is_silent else "the other end closed the connection without an answer"))

    def _at_one(self, call: Callable[[Address], T]) -> T:
        """Returns the result of a call at the first address that answers. If none does, raises the "not now" of one of them, or
        else the last one's error."""
        fault: Away = Away("no address")
        for turn in range(len(self.addresses)):
            place = (self._last + turn) % len(self.addresses)
            try:
                result = call(self.addresses[place])
            except Away as away:
                fault = away if not isinstance(fault, NotNow) or isinstance(away, NotNow) else fault
                continue
            except NotTaken:
                self._last = place
                raise
            self._last = place
            return result
        raise fault


def spoken(connection: socket.socket, requests: Sequence[Request]) -> Iterator[str]:
    """Sends all requests, and returns the complete answer lines that arrive. Raises TooLong, and the connection's OSError."""
    connection.sendall(b"".join(line_of(request) for request in requests))
    rest, came = b"", 0
    until = time.monotonic() + (connection.gettimeout() or REPLY_SECONDS) * (1 + len(requests) / AT_ONCE)
    while came < len(requests):
        read = connection.recv(65536)
        if not read or time.monotonic() > until:
            return
        *lines, rest = (rest + read).split(b"\n")
        for line in lines[:len(requests) - came]:
            came += 1
            yield line.decode("utf-8", "replace")


def line_of(request: Request) -> bytes:
    """Returns the line of a request. Raises TooLong."""
    line = json.dumps(dict(request), separators=(",", ":")).encode() + b"\n"
    if len(line) > MOST_BYTES + 1:
        raise TooLong(f"a line may have at most {MOST_BYTES} bytes, but this request has {len(line) - 1}")
    return line


def patiently(call: Callable[[], T], seconds: float | None = None, told: Callable[[Away], None] | None = None) -> T:
    """Repeats a call while it raises Away, for this many seconds or, if None, forever. `told` receives the first Away in a row."""
    until = None if seconds is None else time.monotonic() + seconds
    wait = 0.1
    is_first = True
    while True:
        try:
            return call()
        except Away as away:
            if until is not None and time.monotonic() >= until:
                raise
            if told and is_first:
                told(away)
            is_first = False
        time.sleep(wait * random.uniform(0.75, 1.25))
        wait = min(wait * 1.5, 2.0)
