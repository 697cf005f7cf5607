"""Clients that check each answer, while the server under them is killed or leaves at any moment.

Each of them owns a node without links. A reset of such a node is one step and one epoch, so every view says how many of the owner's
resets have been carried out, and a client knows what the answer at each place of its lines has to be:

- the answers are those to its own lines, one for each, in turn;
- a view has all resets that the client sent before it, and none that it sent after it;
- a reset is carried out at most once, and exactly once if its answer says so;
- no step answers two orders;
- a reset that names the epoch its node has is never refused, even if its first answer was lost.

A reset without an answer may have been carried out. Those of an ended connection are decided as soon as an order and a view of a later
connection have been answered: what has waited longest is in the next flight.

The speed of the machine does not matter. A client waits while any client gets answers, and counts those answers: if more than MOST_BETWEEN
of them come before the answer to its line, the proxy starves the line. If nobody gets an answer for DEADLINE seconds, the proxy hangs.
Kills of the server and connections that only pass stop after some in a row until a reset is answered (`Pace`), so a slow proxy gets no more
of them for each answer than a quick one.
"""

from __future__ import annotations

import contextlib
import json
import random
import socket
import struct
import threading
from collections import deque
from collections.abc import Callable
from typing import Any

from audit_tail import AuditTail
from case import DEADLINE, OWN, Client, Proxy

Judge = Callable[[dict[str, Any]], None]  # of an answer: raises Wrong
UNKNOWN_NODE = 64
BURSTS = (1, 1, 3, 30, 90)  # lines that are sent before the first answer is read
FAR = 1 << 32  # no node comes to this epoch
BAD_EPOCH = {"name": "BadEpoch", "refused": 15}
LINGER_NONE = struct.pack("ii", 1, 0)
MOST_HURTS = 4  # of the server in a row, without an answered reset between them
MOST_PASSES = 20  # connections that only pass, in a row in the same way
MOST_BETWEEN = 50_000  # answers to all clients while a line waits


class Wrong(Exception):
    """An answer that breaks a promise."""


class Ended(Exception):
    """The connection ended, or has to be begun again."""


class Orderer(threading.Thread):
    """Orders at its own node over one connection after the other; with a client's number if it has one, otherwise as the proxy's."""

    def __init__(self, torture: Torture, node: int, client: int | None) -> None:
        super().__init__(daemon=True)
        self.torture, self.node, self.client = torture, node, client
        self.choice = random.Random(f"{torture.seed} {node}")
        self.known = 0  # resets that were carried out for certain
        self.limit = 0  # those that may have been carried out
        self.sent = 0  # the last number that was sent
        self.next: int | None = None  # the epoch that the node has at the next line, if that is certain
        self.step = 0  # of the last answer
        self.answered = 0  # resets that were answered as carried out
        self.most_between = 0  # answers to all clients while a line waited
        self.connections = self.lines = self.lost = self.judged = 0
        self.faults: list[str] = []
        self.trail = deque[str](maxlen=24)  # the last lines and answers with their connections, for a fault

    def run(self) -> None:
        try:
            while not self.torture.is_over.is_set():
                self.serve(self.choice.randrange(1, 40))
            while not self.serve(0):  # the last kill may end this connection too
                pass
        except Wrong as wrong:
            self.faults.append(f"node {self.node}, client {self.client}, connection {self.connections}: {wrong}")
            self.torture.is_over.set()

    def serve(self, bursts: int) -> bool:
        """Orders over one connection. Returns whether the earlier resets were decided first."""
        is_decided = False
        self.connections += 1
        with self.torture.proxy.connect() as connection, contextlib.suppress(Ended, ConnectionError):
            self.decide(connection, bursts == 0)
            is_decided = True
            for _ in range(bursts):
                self.next = self.known if self.known == self.limit else None
                lines = [self.line() for _ in range(self.choice.choice(BURSTS))]
                is_left = self.choice.random() < 0.05
                self.exchange(connection, lines, is_left)
                if is_left or self.torture.is_over.is_set():
                    break
        return is_decided

    def decide(self, connection: Client, is_last: bool) -> None:
        """Finds out which of the earlier resets were carried out. A client with a number may order on before that is certain, since a
        number is carried out once; if `is_last`, nothing is left undecided."""
        self.exchange(connection, [self.look()])
        self.sent = self.known
        if self.client is None or is_last:
            self.exchange(connection, [self.reset()])
            self.exchange(connection, [self.look()])
            self.sent = self.limit = self.known

    def exchange(self, connection: Client, lines: list[tuple[bytes, Judge]], is_left: bool = False) -> None:
        """Sends lines at once, and judges the answer to each. If `is_left`, the connection is left before the last answer. Raises Ended,
        ConnectionError and Wrong."""
        self.lines += len(lines)
        places = lines[:self.choice.randrange(len(lines))] if is_left else lines
        place = 0
        try:
            connection.send(*(line for line, _ in lines))
            for line, judge in places:
                self.judge(line, self.await_answer(connection, line), judge)
                place += 1
        except TimeoutError:
            raise Wrong(f"these were not read: {[line for line, _ in lines]}") from None
        finally:
            self.lose([line for line, _ in lines[place:]])
        if is_left and self.choice.random() < 0.5:
            connection.socket.setsockopt(socket.SOL_SOCKET, socket.SO_LINGER, LINGER_NONE)

    def await_answer(self, connection: Client, line: bytes) -> bytes:
        """The answer to a line, for which the client waits while others are answered."""
        before = latest = self.torture.judged()
        answer: bytes | None = None
        while answer is None:
            with contextlib.suppress(TimeoutError):
                answer = connection.line()
            if answer is None and self.torture.judged() == latest:
                raise Wrong(f"nobody got an answer for {DEADLINE:g} s, while {line!r} waited")
            latest = self.torture.judged()
            if latest - before > MOST_BETWEEN:
                raise Wrong(f"{latest - before} answers came to others, while {line!r} waited")
        self.most_between = max(self.most_between, latest - before)
        return answer

    def judge(self, line: bytes, answer: bytes, judge: Judge) -> None:
        self.trail.append(f"{self.connections}: {line!r} {answer!r}")
        if not answer:
            raise Ended
        self.judged += 1
        try:
            judge(json.loads(answer))
        except (ValueError, KeyError, TypeError) as fault:
            raise Wrong(f"{line!r} was answered {answer!r}: {fault!r}") from fault
        except Wrong as wrong:
            raise Wrong(f"{line!r} was answered {answer!r}: {wrong}; before it: {list(self.trail)}") from wrong

    def lose(self, lines: list[bytes]) -> None:
        """These have no answer: their resets may be carried out, or not."""
        resets = [order for order in map(order_of, lines) if order.get("node") == self.node and order["op"] == "reset"]
        self.lost += len(resets)
        if self.client is None:
            self.limit += sum(order.get("epoch", 0) < FAR for order in resets)
        else:
            self.limit = max([self.limit, *(order["number"] for order in resets)])

    def line(self) -> tuple[bytes, Judge]:
        """Some line, with the judge of its answer."""
        if self.client is not None:
            return self.choice.choices((self.reset, self.look, self.garbage), (6, 3, 1))[0]()
        kinds = (self.reset, self.reset_at_epoch, self.look, self.garbage, self.refused, self.denied)
        return self.choice.choices(kinds, (6, 2, 4, 1, 2, 1))[0]()

    def reset(self) -> tuple[bytes, Judge]:
        order: dict[str, Any] = {"op": "reset", "node": self.node}
        if self.client is not None:
            self.sent += 1
            order.update(client=self.client, number=self.sent)
        if self.next is not None:
            self.next += 1
        return encoded(order), lambda answer: self.check_reset(answer, order.get("number"))

    def check_reset(self, answer: dict[str, Any], number: int | None) -> None:
        if number is not None and answer.get("name") == "OutOfTurn" and number <= self.limit:
            raise Ended  # an earlier connection's order had this number, and came before it
        if "kind" not in answer:
            raise Wrong(f"{self.known} to {self.limit} resets were carried out before it, {self.sent} is the last number")
        kind, step = answer["kind"], answer["step"]
        if kind == "carried out" and number is None:
            is_new = step == 0
        else:
            is_new = kind == "finished" and step > self.step and self.torture.take_step(step)
            self.step = max(self.step, step)
        if not is_new:
            raise Wrong(f"no reply to a new order, after step {self.step}")
        if number is not None and number != self.known + 1 and number > self.limit:
            raise Wrong(f"{self.known} resets are known before it")
        self.known = self.known + 1 if number is None else number
        self.limit = self.limit + 1 if number is None else max(self.limit, number)
        self.answered += 1
        if self.torture.audit and not self.torture.audit.has(self.node, self.answered):
            raise Wrong(f"the audit has fewer than {self.answered} answers at the node")

    def look(self) -> tuple[bytes, Judge]:
        return b'{"op":"show"}\n', self.check_view

    def check_view(self, answer: dict[str, Any]) -> None:
        epoch = epoch_of(answer, self.node)
        if not self.known <= epoch <= self.limit:
            raise Wrong(f"epoch {epoch}, where {self.known} to {self.limit} resets were carried out")
        self.known = epoch

    def reset_at_epoch(self) -> tuple[bytes, Judge]:
        """One that names the node's epoch, if that is certain; otherwise, and now and then, one that no epoch can fit."""
        order: dict[str, Any] = {"op": "reset", "node": self.node}
        if self.next is None or self.choice.random() < 0.2:
            order["epoch"] = self.far_epoch()
            return encoded(order), lambda answer: expect(answer, BAD_EPOCH)
        order["epoch"] = self.next
        self.next += 1
        return encoded(order), lambda answer: self.check_reset(answer, None)

    def far_epoch(self) -> int:
        return FAR + self.choice.randrange(1 << 20)

    def garbage(self) -> tuple[bytes, Judge]:
        line, fault = self.choice.choice(((b"fly\n", "BadJson"), (b'{"op":"fly"}\n', "UnknownOp"), (b"\xff\n", "BadText"),
                                          (b"x" * 600 + b"\n", "TooLong"), (b'{"op":"reset"}\n', "BadRequest")))
        return line, lambda answer: expect(answer, {"fault": fault})

    def refused(self) -> tuple[bytes, Judge]:
        """An order that the server refuses on its merits, so that the proxy's next order has the same number."""
        order, answer = self.choice.choice((
            ({"op": "confirm", "node": self.node, "epoch": self.far_epoch()}, BAD_EPOCH),
            ({"op": "reset", "node": UNKNOWN_NODE}, {"name": "UnknownNode", "refused": 6})))
        return encoded(order), lambda found: expect(found, answer)

    def denied(self) -> tuple[bytes, Judge]:
        return encoded({"op": "reset", "node": self.node, "client": OWN, "number": 1}), lambda answer: expect(answer, {"fault": "NotAllowed"})


def epoch_of(view: dict[str, Any], node: int) -> int:
    return next((int(row[4]) for row in view["nodes"] if row[0] == node), -1)


def encoded(order: dict[str, Any]) -> bytes:
    return json.dumps(order, separators=(",", ":")).encode() + b"\n"


def order_of(line: bytes) -> dict[str, Any]:
    """The order of a line, if it is one."""
    with contextlib.suppress(ValueError):
        order = json.loads(line)
        return order if isinstance(order, dict) and order.get("client") != OWN else {}
    return {}


def expect(answer: dict[str, Any], wanted: dict[str, Any]) -> None:
    if answer != wanted:
        raise Wrong(f"expected {wanted}")


class Watcher(threading.Thread):
    """Watches: what it is sent never goes back."""

    def __init__(self, torture: Torture) -> None:
        super().__init__(daemon=True)
        self.torture = torture
        self.views, self.settled = 0, 0
        self.faults: list[str] = []

    def run(self) -> None:
        while not self.torture.is_over.is_set():
            with self.torture.proxy.connect() as connection, contextlib.suppress(ConnectionError):
                connection.socket.settimeout(1)
                connection.send({"op": "watch"})
                while not self.torture.is_over.is_set():
                    with contextlib.suppress(TimeoutError):
                        self.take(connection.reply())

    def take(self, view: dict[str, Any]) -> None:
        if view["settled"] < self.settled:
            self.faults.append(f"a watcher's view went back from step {self.settled} to {view['settled']}")
        self.views, self.settled = self.views + 1, view["settled"]


class Passer(threading.Thread):
    """Connects, sends whole lines, half ones or none, and leaves."""

    def __init__(self, torture: Torture) -> None:
        super().__init__(daemon=True)
        self.torture = torture
        self.choice = random.Random(f"{torture.seed} passer")
        self.faults: list[str] = []

    def run(self) -> None:
        kept: list[Client] = []
        pace = Pace(self.torture, MOST_PASSES)
        while not self.torture.is_over.wait(self.choice.random() / 50):
            if not pace.goes_on():
                continue
            kept.append(self.torture.proxy.connect())
            with contextlib.suppress(OSError):
                kept[-1].send(self.choice.choice((b"", b"{", b'{"op":"show"}', b'{"op":"show"}\n' * 100, b"x" * 10_000, b"\n\n")))
            if len(kept) > self.choice.randrange(1, 30):
                kept.pop(self.choice.randrange(len(kept))).close()
        for each in kept:
            each.close()


class Pace:
    """Limits how often something is done in a row without an answered reset between: on a busy machine an answer may take longer than the
    pauses."""

    def __init__(self, torture: Torture, most: int) -> None:
        self._torture, self._most = torture, most
        self._answered = self._in_a_row = 0

    def goes_on(self) -> bool:
        """Whether it may be done once more, which is then counted."""
        if (answered := self._torture.answered()) > self._answered:
            self._answered, self._in_a_row = answered, 0
        if self._in_a_row == self._most:
            return False
        self._in_a_row += 1
        return True


class Torture:
    """Orderers, a watcher and others at a proxy, until the time is over. `hurt` does something to the server, again and again."""

    def __init__(self, proxy: Proxy, seed: int, nodes: int, clients: int, audit: AuditTail | None = None) -> None:
        self.proxy, self.seed, self.audit = proxy, seed, audit
        self.is_over = threading.Event()
        self._steps: set[int] = set()
        self._lock = threading.Lock()
        self.orderers = [Orderer(self, node, node if node <= clients else None) for node in range(1, nodes + 1)]
        self.watcher = Watcher(self)
        self.all: list[Orderer | Watcher | Passer] = [*self.orderers, self.watcher, Passer(self)]
        self.hurts = 0

    def take_step(self, step: int) -> bool:
        """Whether no other order was answered by this step."""
        with self._lock:
            is_new = step not in self._steps
            self._steps.add(step)
            return is_new

    def run(self, seconds: float, hurt: Callable[[random.Random], None]) -> None:
        choice, pace = random.Random(self.seed), Pace(self, MOST_HURTS)
        for each in self.all:
            each.start()
        timer = threading.Timer(seconds, self.is_over.set)
        timer.start()
        try:
            while not self.is_over.wait(choice.random() / 4):
                if pace.goes_on():
                    hurt(choice)
                    self.hurts += 1
        finally:
            timer.cancel()
            self.is_over.set()
        for each in self.all:
            each.join()

    def faults(self) -> list[str]:
        return [fault for each in self.all for fault in each.faults]

    def resets(self) -> int:
        """How many were carried out, as the orderers know it at the end."""
        return sum(orderer.known for orderer in self.orderers)

    def answered(self) -> int:
        """How many resets were answered as carried out."""
        return sum(orderer.answered for orderer in self.orderers)

    def judged(self) -> int:
        """How many answers came to the orderers."""
        return sum(orderer.judged for orderer in self.orderers)

    def said(self) -> str:
        lost = sum(each.lost for each in self.orderers)
        connections, lines = sum(each.connections for each in self.orderers), sum(each.lines for each in self.orderers)
        return (f"{lines} lines over {connections} connections; {self.answered()} resets were answered, {lost} lost their "
                f"connections, {self.resets()} were carried out, each once; {self.watcher.views} views were pushed; "
                f"no line waited for more than {max(each.most_between for each in self.orderers)} answers to others")
