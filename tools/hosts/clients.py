"""Clients of a coordinator that may be on any of several hosts: they try its addresses in turn."""

from __future__ import annotations

import json
import random
import socket
import threading
import time
from collections.abc import Callable
from typing import TYPE_CHECKING, Any

from .network import STEP_TIMEOUT, Host

if TYPE_CHECKING:
    from .keeper import Keeper
    from .records import Records

# maximum number of bytes in a line
Json = dict[str, Any]
STOPPED, OLD_EPOCH = 1, 15
TIMEOUT = 2  # seconds for one answer, before the next address is tried


class Lost(Exception):
    """A promise was violated."""


class Away(Exception):
    """No answer came from this address."""


def ask(host: Host, address: str, request: Json, seconds: float = TIMEOUT) -> Json:
    """Sends one request to an address, from the network of a host, and returns the reply."""
    name, port = address.rsplit(":", 1)
    try:
        with host.network():
            connection = socket.socket()
        with connection:
            connection.settimeout(seconds)
            connection.connect((name, int(port)))
            connection.sendall(json.dumps(request).encode() + b"\n")
            with connection.makefile("rb") as lines:
                line = lines.readline()
    except OSError as fault:
        raise Away(str(fault)) from fault
    if not line.endswith(b"\n"):
        raise Away("no answer came")
    reply: Json = json.loads(line)
    return reply


class Site:
    """The place of the clients, and the addresses that they try, beginning with the last one that served. A coordinator that
    answers Stopped is sent a close: it serves nobody, and holds the lock of the file while it runs."""

    def __init__(self, host: Host, keepers: list[Keeper]) -> None:
        self.host, self.keepers, self.present = host, keepers, keepers[0]

    def next_after(self, keeper: Keeper) -> None:
        """Changes to the next address, unless another client already has."""
        if self.present is keeper:
            self.present = self.keepers[(self.keepers.index(keeper) + 1) % len(self.keepers)]

    def ask(self, request: Json) -> tuple[Json, Keeper]:
        """Sends a request until a coordinator carries it out. Returns the reply, and the address that gave it."""
        met = self.ask_while(lambda: True, request)
        assert met
        return met

    def ask_while(self, is_wanted: Callable[[], bool], request: Json) -> tuple[Json, Keeper] | None:
        """Like `ask`, but returns None once the request is no longer wanted."""
        until = time.monotonic() + STEP_TIMEOUT
        while time.monotonic() < until and is_wanted():
            keeper = self.present
            try:
                reply = ask(self.host, keeper.address, request)
                if reply.get("refused") != STOPPED:
                    return reply, keeper
                ask(self.host, keeper.address, {"op": "close"})
            except Away:
                pass
            self.next_after(keeper)
            time.sleep(0.05)
        if is_wanted():
            raise Lost(f"{request} was not answered within {STEP_TIMEOUT} s")
        return None


class Client:
    """The orders of one client: the last one with a reply, and one that waits for its answer."""

    def __init__(self, number: int, site: Site, records: Records) -> None:
        self.number, self.site, self.records = number, site, records
        self.answered: Json | None = None
        self.reply: Json | None = None
        self.unanswered: Json | None = None
        self.refused = ""
        self.drops = 0  # one answer in this many is dropped, to see that this is noticed

    def order(self, op: str, is_wanted: Callable[[], bool] = lambda: True,
              **members: int) -> Json | None:
        """Carries out an order, or the one that still waits for its answer. Returns its reply or its refusal."""
        if self.unanswered is None:
            number = self.answered["number"] + 1 if self.answered else 1
            self.unanswered = {"op": op, "client": self.number, "number": number, **members}
        met = self.site.ask_while(is_wanted, self.unanswered)
        if met is None:
            return None
        reply, keeper = met
        order = self.unanswered
        if "kind" in reply:
            self.note(order, reply, keeper)
        else:
            self.refused = f"{order} was answered {reply} by {keeper.host.name}, after {self.answered}: {self.reply}"
        self.unanswered = None  # the last call; without this, the answer is recorded
        return reply

    def note(self, order: Json, reply: Json, keeper: Keeper) -> None:
        self.records.note_answer(order, reply, keeper)
        if self.drops == 0 or order["number"] % self.drops:
            self.answered, self.reply = order, reply

    def repeat(self) -> None:
        """Sends the last answered order again, which must get the same answer."""
        if self.answered is None:
            return
        reply, keeper = self.site.ask(self.answered)
        if reply != self.reply:
            raise Lost(f"{self.answered} was answered {self.reply}, and sent again {reply} by {keeper.host.name} "
                       f"(without an answer: {self.unanswered})")


class Load:
    """Clients that ask for resets of random members, each as soon as it has its answer."""

    def __init__(self, clients: list[Client], members: list[int], seed: int) -> None:
        self.clients, self.members = clients, members
        self.choices = [random.Random(f"{seed} {client.number}") for client in clients]
        self.threads: list[threading.Thread] = []
        self.fault: Exception | None = None
        self.is_on = False

    def start(self) -> None:
        self.is_on = True
        self.threads = [threading.Thread(target=self.run, args=each, daemon=True) for each in zip(self.clients, self.choices)]
        for thread in self.threads:
            thread.start()

    def run(self, client: Client, choice: random.Random) -> None:
        try:
            while self.is_on:
                reply = client.order("reset", is_wanted=lambda: self.is_on, node=choice.choice(self.members))
                if reply is not None and "kind" not in reply:
                    raise Lost(client.refused)
        except Exception as fault:  # set by `stop`
            self.fault = fault

    def stop(self) -> None:
        """Stops giving orders. `finish` sends an order without an answer again."""
        self.is_on = False
        for thread in self.threads:
            thread.join()
        if self.fault:
            raise self.fault

    def finish(self) -> None:
        for client in self.clients:
            if client.unanswered:
                client.order("")
