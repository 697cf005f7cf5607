"""Migrates copies of a store of version 1, kills the migrations, and checks what is left."""

from __future__ import annotations

import hashlib
import os
import random
import re
import shutil
import subprocess
import threading
import time

from . import faults
from .clients import Client, Lost
from .ring import NODES, Ring
from .server import Server

HALF = 32_768
# Selector, magic, length of a half; version 1, a snapshot of eleven zeros (the empty world), a closed gate: the worked
# dump of docs/FORMATS.md.
EMPTY = b"\0ACRRESET" + HALF.to_bytes(8, "big") + b"\1" + (11).to_bytes(4, "big") + bytes(11) + b"\0"
# The same with a batch of four orders of client 1: nodes 1 and 2, their link, and a reset at node 1, which is in progress.
COMMANDS = (b"\0\1\1", b"\0\2\1", b"\2\1\2", b"\4\1")
ORDERS = b"".join(b"\0\1" + number.to_bytes(8, "big") + command for number, command in enumerate(COMMANDS, 1))
BATCH = (1).to_bytes(8, "big") + len(COMMANDS).to_bytes(2, "big") + ORDERS
IN_A_RESET = EMPTY[:-1] + b"\1" + len(BATCH).to_bytes(4, "big") + BATCH + b"\0"
KILLED = -9
# The calls of a migration. Up to the second they leave version 1, and the last one leaves version 2.
WRITE, SYNCS = "pwrite64", ("fsync", "fdatasync")


def run(program: str, folder: str, choice: random.Random, rounds: int) -> None:
    """Kills this many migrations, at a random moment and at each device call in turn."""
    first, copy = Server(program, f"{folder}/first"), Server(program, f"{folder}/copy")
    ring = Ring(first, choice)
    try:
        kill_all(Trial(ring, copy, fill(ring)), choice, rounds)
    finally:
        first.end()
        copy.end()


def kill_all(trial: Trial, choice: random.Random, rounds: int) -> None:
    usual = trial.usual()
    calls = trial.calls() if faults.can_inject() else []
    print(f"a store of version 1 with {trial.count} steps, migrated in {usual:.3f} s", flush=True)
    for done in range(rounds):
        place = done % (len(calls) + 1)
        if place == 0:
            trial.kill_after(choice.uniform(0, usual * 1.2))
        else:
            trial.kill_at_call(place, *calls[place - 1])
        trial.finish()
    trial.report(rounds, calls)
    trial.go_on()


def fill(ring: Ring) -> int:
    """Creates the store from its bytes, and gives it a ring and resets through a server. Returns its number of steps."""
    with open(ring.server.store, "wb") as file:
        file.write(EMPTY)
    ring.server.must_start()
    operator = Client(16)
    for node in range(1, NODES + 1):
        operator.order(ring.server, "add", node=node, group=1)
    for node in range(1, NODES + 1):
        operator.order(ring.server, "join", a=node, b=node % NODES + 1)
    for resets in (1, len(ring.clients)):
        ring.ask_resets(resets)
        ring.follow()
    ring.clients.append(operator)
    ring.server.must_close()
    if version(ring.server.store) != 1:
        raise Lost("a server changed the version of a store of version 1")
    return ring.history.look_into(ring.server)[0]


def version(store: str) -> int:
    """Returns the version byte of the half that the first byte selects (docs/FORMATS.md, "Device")."""
    with open(store, "rb") as file:
        header = file.read(17)
        file.seek(17 + header[0] % 2 * int.from_bytes(header[9:], "big"))
        return file.read(1)[0]


def digest(path: str) -> bytes:
    with open(path, "rb") as file:
        return hashlib.sha256(file.read()).digest()


class Trial:
    """A copy of the store, made again for each migration."""

    def __init__(self, ring: Ring, server: Server, count: int) -> None:
        self.ring, self.server, self.count = ring, server, count
        self.first = ring.server.store
        self.command = [server.program, "migrate", server.store]
        self.rows: tuple[int, list[str]] = ring.server.command("show")
        self.found = {1: 0, 2: 0}  # how many were found in each version after a kill
        self.too_late = 0  # the number of migrations that had ended before the kill

    def copy(self) -> None:
        shutil.copyfile(self.first, self.server.store)

    def usual(self) -> float:
        """Returns how long a migration without a kill takes, for choosing moments."""
        took = []
        for _ in range(5):
            self.copy()
            began = time.monotonic()
            self.migrate()
            took.append(time.monotonic() - began)
        return max(took)

    def migrate(self) -> None:
        """Makes a whole migration, and a second one, which writes nothing."""
        for _ in range(2):
            before = digest(self.server.store) if version(self.server.store) == 2 else None
            done = self.server.command("migrate")
            if done != (0, [f"migrated {self.count}"]) or version(self.server.store) != 2:
                raise Lost(f"resetd migrate: {done}, and the store has version {version(self.server.store)}")
            if before not in (None, digest(self.server.store)):
                raise Lost("resetd migrate has written to a store of version 2")

    def calls(self) -> list[tuple[str, int]]:
        """Returns the four device calls of a migration: the name of each, and its place among the calls of that name in the
        run."""
        self.copy()
        log = f"{self.server.store}.strace"
        names = ",".join((WRITE, *SYNCS))
        subprocess.run(["strace", "-f", "-qq", "-o", log, "-e", f"trace={names}", *self.command], check=True,
                       stdout=subprocess.DEVNULL)
        with open(log, encoding="utf-8", errors="replace") as file:
            made = re.findall(r"^(?:\d+ +)?([a-z0-9]+)\(", file.read(), re.MULTILINE)
        last = made[-4:]
        if len(last) < 4 or last[0::2] != [WRITE, WRITE] or not set(last[1::2]) <= set(SYNCS):
            raise Lost(f"a migration made these calls of its device: {' '.join(made)}")
        return [(name, made[:place].count(name)) for place, name in enumerate(made, 1)][-4:]

    def kill_after(self, seconds: float) -> None:
        """Kills a migration some time after its start."""
        self.copy()
        process = subprocess.Popen(self.command, stdout=subprocess.PIPE, stderr=subprocess.STDOUT)
        killer = threading.Timer(seconds, process.kill)
        killer.start()
        printed = process.communicate()[0].decode()
        killer.cancel()
        if process.returncode == KILLED:
            self.look(f"after {seconds:.4f} s")
        elif (process.returncode, printed) == (0, f"migrated {self.count}\n"):
            self.too_late += 1
        else:
            raise Lost(f"resetd migrate ended by itself with status {process.returncode}: {printed}")

    def kill_at_call(self, place: int, name: str, when: int) -> None:
        """Kills a migration when it makes one of its device calls, the first to the fourth."""
        self.copy()
        status = subprocess.run(["strace", "-f", "-qq", "-o", os.devnull, "-e", f"trace={name}",
                                 "-e", f"inject={name}:signal=9:when={when}", *self.command],
                                capture_output=True, check=False).returncode
        if status != KILLED:
            raise Lost(f"strace did not kill a migration at its call {place} ({name} {when}): status {status}")
        left = self.look(f"at its call {place} ({name})")
        # The selector is written by the third one.
        if (place < 3 and left != 1) or (place == 4 and left != 2):
            raise Lost(f"a migration that was killed at its call {place} ({name}) left version {left}")

    def look(self, where: str) -> int:
        """Checks that a kill left a legal store with the same rows, which answers each client's last order as before. Returns
        its version."""
        left = version(self.server.store)
        legal = self.server.command("check")
        if legal != (0, [f"legal {self.count}"]) or self.server.command("show") != self.rows or left not in self.found:
            raise Lost(f"a migration was killed {where}, and then resetd check says {legal}, of version {left}")
        self.server.must_start()
        for client in self.ring.clients:
            client.repeat(self.server, self.count)
        self.server.must_close()
        legal = self.server.command("check")
        if legal != (0, [f"legal {self.count}"]) or version(self.server.store) != left:
            raise Lost(f"a migration was killed {where}; served and closed, resetd check says {legal}")
        self.found[left] += 1
        return left

    def finish(self) -> None:
        """Makes version 2 of whatever was left, by the same command, and checks that the rows are the same."""
        self.migrate()
        if self.server.command("show") != self.rows:
            raise Lost("a store that was migrated shows other rows")

    def report(self, rounds: int, calls: list[tuple[str, int]]) -> None:
        where = f"at a random moment and at {', '.join(name for name, _ in calls)}" if calls else \
            f"at a random moment ({faults.why_not()})"
        print(f"{rounds} migrations killed {where}: {self.found[1]} left version 1, {self.found[2]} version 2, "
              f"{self.too_late} had ended; each had all steps and sessions, and was then migrated", flush=True)
        if calls and 0 in self.found.values() and rounds > len(calls):
            raise Lost("all kills left the same version: none came during a migration")

    def go_on(self) -> None:
        """Makes resets over the migrated store, which must stay version 2."""
        self.ring.server = self.server
        self.server.must_start()
        self.ring.repeat_orders(self.count)
        for resets in (1, 1, 3):
            self.ring.ask_resets(resets)
            self.ring.follow()
        self.server.must_close()
        self.ring.history.note_signals(self.server.new_signals())
        self.ring.history.look_into(self.server)
        self.ring.history.expect_printed()
        if version(self.server.store) != 2:
            raise Lost("a server changed the version of a store of version 2")
