#!/usr/bin/env python3
"""A member of a work queue, for the trials of tools/test_services: it hands items on to the next member, in order.

Member 1 makes items 1, 2, 3 and so on and hands them to member 2, which hands them to 3, and so round to 1. Each start has a
name, which the coordinator does not know and the tag does not contain; each message has the names of all starts that it comes
from. So a member reports when it hears of two starts of one member within one start of its own (MIXED), and when an item is left
out (GAP).

usage: queue_member NODE ADDR FOLDER OWN PEER SIGNALS [WITHOUT..]
    OWN and PEER are ports. WITHOUT is what a trial leaves out, to see that this is noticed:
    history     a start may talk by the party of an earlier one
    party       a start talks with whoever is connected
    reset       a member without a start of the shown epoch begins it, confirmed or not, and asks for no reset
    coordinator a member begins once, as it starts, and talks with whoever is connected; ADDR and SIGNALS are not looked at
"""

from __future__ import annotations

import contextlib
import json
import os
import secrets
import signal
import socket
import socketserver
import sys
import threading
import time
import types
from collections.abc import Container, Iterator
from typing import Any

sys.dont_write_bytecode = True
sys.path.insert(0, os.path.join(os.path.dirname(os.path.abspath(__file__)), "..", "..", "client"))
from resetd_client import Clock, Due, Member, Node, OutOfRun, Port, Starts, View, Wakes, keep, orders_of, wakes_of  # noqa: E402
from resetd_client.rule import Judged, Kept, judge, shown_to  # noqa: E402
from resetd_client.starts import Barred  # noqa: E402

Json = dict[str, Any]

AHEAD = 5  # items in transit round the ring
PAUSE = 0.01
LOOK_SECONDS = 0.3


class Weaker(Starts):
    """The rule of a member without one of its parts."""

    without = frozenset[str]()

    def _judged(self, view: View, row: Node) -> Judged:
        shown = shown_to(view, row)
        history: Container[str] = Barred(self._shelf)
        judged = judge(Kept(self.begun, self._kept.party), set() if "history" in self.without else history, shown)
        if judged.due is not Due.RESET:
            return judged
        if row.epoch != self.begun and "reset" in self.without:
            return Judged(Due.BEGIN, Kept())
        if row.epoch == row.confirmed == self.begun and "party" in self.without and shown.is_through:
            return Judged(Due.TALK, Kept(self.begun, shown.party))
        return judged


class Alone:
    """A member without a coordinator: all that it does is one run."""

    def __init__(self, queue: Queue) -> None:
        self.lock = threading.Lock()
        if not queue.work:
            queue.begin(1)

    @contextlib.contextmanager
    def in_run(self, tag: str = "alone", wait: float = 0) -> Iterator[types.SimpleNamespace]:
        with self.lock:
            yield types.SimpleNamespace(tag=tag)

    def follow(self, *_: object) -> None:
        signal.pause()

    def stop(self) -> None:
        sys.exit()


class Queue:
    """The work: the number of items taken from the previous member, and the number that the next one has taken."""

    def __init__(self, node: int, folder: str) -> None:
        self.node, self.path = node, os.path.join(folder, "work")
        self.work: Json = {}  # empty if there is none
        if os.path.exists(self.path):
            with open(self.path, encoding="utf-8") as file:
                self.work = json.load(file)

    def begin(self, epoch: int) -> None:
        """Drops the present work, and loads the common start, in which no item was made."""
        name = secrets.token_hex(4)
        self.keep({"epoch": epoch, "taken": 0, "handed": 0, "starts": {str(self.node): name}})
        self.report(f"starts anew, epoch {epoch}")

    def next(self) -> Json | None:
        """Returns the next message, or None if there is no item to hand on."""
        item = self.work["handed"] + 1
        if item > self.work["taken"] + (AHEAD if self.node == 1 else 0):
            return None
        return {"from": self.node, "item": item, "starts": self.work["starts"]}

    def take(self, message: Json) -> Json:
        """Takes an item, and returns how many were taken. An item that arrives again was taken before."""
        starts, item = self.join(message["starts"]), message["item"]
        if item > self.work["taken"] + 1:
            self.report(f"GAP: item {item} came after {self.work['taken']}")
        self.keep({**self.work, "starts": starts, "taken": max(item, self.work["taken"])})
        return {"taken": item, "starts": starts}

    def note_handed(self, answer: Json) -> None:
        self.keep({**self.work, "starts": self.join(answer["starts"]), "handed": answer["taken"]})

    def join(self, starts: dict[str, str]) -> dict[str, str]:
        mine = self.work["starts"]
        for node, name in starts.items():
            if mine.get(node, name) != name:
                self.report(f"MIXED: start {name} of member {node}, and {mine[node]} before, in one start of epoch "
                            f"{self.work['epoch']}")
        return {**starts, **mine}

    def keep(self, work: Json) -> None:
        keep(self.path, json.dumps(work) + "\n")
        self.work = work

    def report(self, text: str) -> None:
        print(f"queue {self.node}: {text}", flush=True)


def listener(port: int, member: Member | Alone, queue: Queue) -> socketserver.BaseServer:
    """Takes items from the previous member. A connection begins with the tag of its run."""
    class Handler(socketserver.StreamRequestHandler):
        def handle(self) -> None:
            try:
                tag = self.rfile.readline().decode().strip()
                for line in self.rfile:
                    with member.in_run(tag):
                        answer = queue.take(json.loads(line))
                    self.wfile.write(json.dumps(answer).encode() + b"\n")
            except (OutOfRun, OSError, ValueError):
                pass

    class Listener(socketserver.ThreadingTCPServer):
        allow_reuse_address = daemon_threads = True
    return Listener(("127.0.0.1", port), Handler)


def send(port: int, member: Member | Alone, queue: Queue) -> None:
    """Sends items to the next member, as long as there is a run."""
    while True:
        try:
            with member.in_run(wait=1) as run:
                pass
            with socket.create_connection(("127.0.0.1", port), timeout=5) as connection:
                hand_on(connection, run.tag, member, queue)
        except (OutOfRun, OSError, ValueError):
            time.sleep(PAUSE)


def hand_on(connection: socket.socket, tag: str, member: Member | Alone, queue: Queue) -> None:
    answers = connection.makefile("r", encoding="utf-8")
    connection.sendall(f"{tag}\n".encode())
    while True:
        with member.in_run(tag):
            message = queue.next()
        if message:
            connection.sendall(json.dumps(message).encode() + b"\n")
            answer = json.loads(answers.readline())
            with member.in_run(tag):
                queue.note_handed(answer)
        time.sleep(PAUSE)


def main() -> None:
    node, address, folder, own, peer, signals, *without = sys.argv[1:]
    os.makedirs(folder, exist_ok=True)
    queue = Queue(int(node), folder)
    member: Member | Alone
    wakes: Wakes = Clock()
    if "coordinator" in without:
        member = Alone(queue)
    else:
        orders = orders_of(Port(address, 30), int(node), folder, held_seconds=5)
        wakes = wakes_of(orders.port, signals, orders)
        member = Member(orders.port, orders, int(node), queue.work["epoch"] if queue.work else None, queue.begin)
        if without:
            Weaker.without = frozenset(without)
            member._starts.__class__ = Weaker
    threading.Thread(target=listener(int(own), member, queue).serve_forever, daemon=True).start()
    threading.Thread(target=send, args=(int(peer), member, queue), daemon=True).start()
    signal.signal(signal.SIGTERM, lambda *_: member.stop())
    member.follow(wakes, LOOK_SECONDS)


main()
