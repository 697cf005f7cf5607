"""The common parts of all commands: their arguments, the port, the orders of one client in a folder, and messages for a person."""

from __future__ import annotations

import argparse
import json
import os
import sys
import threading
from collections.abc import Callable, Iterator, Mapping
from contextlib import contextmanager
from dataclasses import dataclass
from typing import Any, TypeVar

from ..address import Credentials
from ..advice import explained
from ..answers import Away, NotNow, NotTaken, Refused, Reply
from ..orders import CountLost, Order, Orders
from ..port import Port, patiently
from ..view import View

DONE, REFUSED, WRONG_ARGUMENTS, AWAY, COUNT = 0, 1, 2, 3, 4
TIMEOUT, SECONDS = 30.0, 20.0
READ_SECONDS = 2.0  # how long a read-only command waits, in all and for one answer
SILENCE_SECONDS = 1.0  # after this many seconds without an answer, a message names the pending request
Arguments = argparse.Namespace
T = TypeVar("T")


def add_json(parser: argparse.ArgumentParser) -> None:
    parser.add_argument("--json", action="store_true", help="print the result as one line of JSON")


def print_json(value: object) -> None:
    """Prints one compact line, like an answer of the port."""
    print(json.dumps(value, separators=(",", ":")), flush=True)


def no_arguments(_: argparse.ArgumentParser) -> None:
    """Adds no arguments: for a command that has none."""


@dataclass(frozen=True)
class Command:
    """A row of the table of commands. `is_read_only`: the command only reads, so it waits at most 2 s."""

    name: str
    about: str
    call: Callable[[Control], int]
    add_arguments: Callable[[argparse.ArgumentParser], None] = no_arguments
    is_read_only: bool = False


class Control:
    """A command's arguments, and its connection to the coordinator."""

    def __init__(self, arguments: Arguments) -> None:
        self.arguments = arguments
        self.timeout: float = arguments.patience if arguments.patience is not None else READ_SECONDS if arguments.is_read_only else TIMEOUT
        self.seconds: float = arguments.seconds if arguments.seconds is not None else READ_SECONDS if arguments.is_read_only else SECONDS
        self.port = Port(arguments.address, self.seconds, Credentials.found().over(
            certificate=arguments.certificate, key=arguments.key, authority=arguments.authority))
        self.folder = os.path.join(arguments.state, arguments.address.replace(":", "_").replace("/", "_"))
        self._asked: Mapping[str, Any] = {}

    def report(self, text: str) -> None:
        """Prints the reply of an order."""
        if not self.arguments.quiet:
            print(text, flush=True)

    def patient(self, call: Callable[[], T]) -> T:
        """Repeats a call until it is answered or the time is over. Prints a message immediately when it starts to wait."""
        with complain_after(SILENCE_SECONDS, f"waiting for an answer from {self.arguments.address}") as timer:
            def report(away: Away) -> None:
                timer.cancel()
                complain(f"{self.why(away)}; trying again for {self.timeout:g} s")
            return patiently(call, self.timeout, report)

    def show(self) -> View:
        return self.patient(self.port.show)

    def orders(self) -> Orders:
        """Returns the client's orders. They recover the client's number if another person has ordered as the same client."""
        folder = os.path.join(self.folder, f"client-{self.arguments.client}")
        return Orders(self.port, self.arguments.client, folder, recovers=True, held_seconds=10.0, told=complain)

    def settle(self, book: Orders) -> None:
        """Sends the orders of an earlier call that have no answer again, and prints their results."""
        if not book.unanswered:
            return
        left = book.unanswered
        complain(f"sending these orders again, because they had no answer: {'; '.join(map(order_text, left))}")
        try:
            for order, outcome in zip(left, self.patient(book.settle)):
                complain(f"{order_text(order)}: {outcome if isinstance(outcome, NotTaken) else reply_text(outcome)}")
        except CountLost:
            complain(f"client {self.arguments.client} has sent later orders, so this order is not sent again: "
                     "use show to see whether it was carried out")
            self.patient(book.recover)

    def carry_out(self, book: Orders, op: str, **members: int) -> Reply:
        """Carries out one order. A reply with an older step belongs to another order; that means that the client's number is
        wrong."""
        self._asked = {"op": op, **members}
        accepted = self.show().accepted
        return self.patient(lambda: book.order(op, above=accepted, **members))

    def carry_out_all(self, book: Orders, orders: list[Order], above: int) -> Iterator[Reply]:
        """Returns the replies to orders that are sent together. All their steps must be above `above`. Raises the first answer
        that is not a reply."""
        for order, outcome in zip(orders, self.patient(lambda: book.order_all(orders, above=above))):
            if isinstance(outcome, NotTaken):
                self._asked = order
                raise outcome
            yield outcome

    def why(self, fault: NotTaken | Away) -> str:
        """Returns the message for a refusal, a fault or a missing answer: the cause, or what to do."""
        if isinstance(fault, NotNow):
            return f"the server answers {explained(fault, {})}"
        if isinstance(fault, Away):
            return f"no answer: {fault}"
        view = None
        if isinstance(fault, Refused) and self._asked:
            try:
                view = self.port.show()
            except (Away, NotTaken):
                pass
        return explained(fault, self._asked, view)


@contextmanager
def complain_after(seconds: float, text: str) -> Iterator[threading.Timer]:
    """Prints a text on standard error if the body takes longer than this many seconds, unless the body cancels the timer."""
    timer = threading.Timer(seconds, complain, [text])
    timer.daemon = True
    timer.start()
    try:
        yield timer
    finally:
        timer.cancel()


def complain(text: str) -> None:
    print(f"resetctl: {text}", file=sys.stderr, flush=True)


def order_text(order: Mapping[str, Any]) -> str:
    return " ".join(str(value) for value in order.values())


def reply_text(reply: Reply) -> str:
    """Formats a reply as a line, without its step if the reply was lost with a connection."""
    return f"{reply.kind} {reply.step}" if reply.step else reply.kind
