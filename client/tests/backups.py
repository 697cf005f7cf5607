"""Copies of a store that is served, under load: each must be a legal store with every order that was answered before the copy
began. `RESETD=PROGRAM python3 client/tests/backups.py [COPIES] [--planted]` makes this many (1,000), with --planted by a wrong
reading that reads gates after the bytes that follow them, which must be found."""

from __future__ import annotations

import random
import subprocess
import sys
import tempfile
import threading
import time
from typing import Any

from case import PROGRAM
from real import Real
from resetd_client import Away, NotTaken, Port, Refused, find_count, patiently
from resetd_client.control import main
from resetd_client.store_file import Store, read_half, read_store
from resetd_client.store_grammar import orders_of

NODES, CLIENTS = 8, 4
Answered = tuple[dict[str, Any], dict[str, Any]]  # an order and its reply
ONE_IN_SERVED = 20  # copies after which one is also served
WRITTEN_SECONDS = 60  # seconds within which a store under load is written to


class Lost(Exception):
    """A copy is not a legal store, or lacks an answered order."""


class Load(threading.Thread):
    """One client that asks for resets, several lines at once. `answered` is the number of the last order with a reply."""

    def __init__(self, address: str, client: int) -> None:
        super().__init__(daemon=True)
        self.port, self.client, self.choice = Port(address, 300), client, random.Random(client)
        self.answered: Answered | None = None
        self.is_over, self.failed = False, ""
        self.start()

    def run(self) -> None:
        number = 0
        while not self.is_over and not self.failed:
            try:
                number = self.some(number)
            except Away:
                number = patiently(lambda: find_count(self.port, self.client, number))
            except NotTaken as fault:
                self.failed = f"client {self.client}: {fault}"

    def some(self, number: int) -> int:
        """Asks for some resets. Returns the number of the last one that was answered."""
        lines = [{"op": "reset", "client": self.client, "number": number + 1 + each, "node": self.choice.randint(1, NODES)}
                 for each in range(self.choice.randint(1, 8))]
        for line, answer in zip(lines, self.port.ask_many(lines)):
            if isinstance(answer, NotTaken):
                raise answer
            number += 1
            self.answered = (line, answer)
        return number


class Trial:
    """A coordinator under load, and the copies of its store."""

    def __init__(self, folder: str, is_planted: bool = False) -> None:
        self.folder, self.is_planted, self.server = folder, is_planted, Real(PROGRAM)
        self.server.found("".join(f"[[node]]\nid = {node}\ngroup = 1\n" for node in range(1, NODES + 1)) +
                          "".join(f"[[link]]\na = {node}\nb = {node % NODES + 1}\n" for node in range(1, NODES + 1)))
        self.load = [Load(self.server.behind, client) for client in range(1, CLIENTS + 1)]
        self.halves, self.made = set[tuple[int, int]](), 0

    def end(self) -> None:
        for each in self.load:
            each.is_over = True
        for each in self.load:
            each.join()
        self.server.close()

    def copies(self, count: int) -> str:
        """Makes this many copies, and checks each. Returns the counts. Raises Lost."""
        began = time.monotonic()
        while any(each.answered is None and not each.failed for each in self.load):
            time.sleep(0.01)
        for _ in range(count):
            self.copy()
        last = max(answer["step"] for each in self.load if each.answered for _, answer in [each.answered])
        return f"{count} copies in {time.monotonic() - began:.0f} s over {last} steps and {len(self.halves)} checkpoints: none lost"

    def copy(self) -> None:
        answered = [each.answered for each in self.load if each.answered]
        path = f"{self.folder}/copy"
        if self.is_planted:
            read_gates_last(self.server.store, path)
        elif main(["--quiet", "--state", self.folder, "backup", self.server.store, path]) != 0:
            raise Lost("the copy was refused")
        store = self.judge(path)
        last = {session.client: session.number for session in store.world.sessions}
        last.update((step.client, step.number) for _, step in orders_of(list(store.batches)))
        for order, reply in answered:
            if store.count < reply["step"] or last.get(order["client"], 0) < order["number"]:
                raise Lost(f"{order} was answered {reply}, and the copy has {store.count} steps and orders up to {last}")
        self.halves.add((store.half.index, store.world.count))
        self.made += 1
        if self.made % ONE_IN_SERVED == 0:
            self.serve(path, answered)
        for each in self.load:
            if each.failed:
                raise Lost(each.failed)

    def judge(self, path: str) -> Store:
        """Returns what the program and the library report about a copy."""
        done = subprocess.run([PROGRAM, "check", path], capture_output=True, encoding="utf-8", check=False)
        if done.returncode != 0:
            raise Lost(f"resetd check: {done.stdout}{done.stderr}")
        store = read_store(path)
        if done.stdout != f"legal {store.count}\n":
            raise Lost(f"resetd check says {done.stdout.strip()}, and it reads as one of {store.count} steps")
        return store

    def serve(self, path: str, answered: list[Answered]) -> None:
        """Serves a copy. Its earlier answers must be the same, or it must have a later order of the client."""
        with subprocess.Popen([PROGRAM, "serve", path, "127.0.0.1:0"], stdout=subprocess.PIPE, encoding="utf-8") as server:
            assert server.stdout
            port = Port(server.stdout.readline().split()[1], 300)
            for order, reply in answered:
                [again] = port.ask_many([order])
                if again != reply and not (isinstance(again, Refused) and again.name == "OutOfTurn"):
                    raise Lost(f"{order} was answered {reply}, and over the copy {again}")
            server.kill()


def read_gates_last(store: str, path: str) -> None:
    """Makes a wrong copy: the bytes after the last gate are of an earlier moment than the gate."""
    with open(store, "rb") as file:
        earlier = file.read()
        half = read_half(lambda place, length: earlier[place:place + length])
        later, until = earlier, time.monotonic() + WRITTEN_SECONDS
        while later == earlier and time.monotonic() < until:
            time.sleep(0.1)
            file.seek(0)
            later = file.read()
    cut = half.start + half.used
    with open(path, "wb") as file:
        file.write(later[:cut] + earlier[cut:])


if __name__ == "__main__":
    if not PROGRAM:
        sys.exit("RESETD names the program")
    with tempfile.TemporaryDirectory() as scratch:
        trial = Trial(scratch, "--planted" in sys.argv)
        try:
            print(trial.copies(int(next((word for word in sys.argv[1:] if word.isdigit()), "1000"))))
        except Lost as lost:
            sys.exit(f"copy {trial.made + 1}: {lost}")
        finally:
            trial.end()
