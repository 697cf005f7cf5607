"""Eight workers share a database and are paused at random while their group goes on, or its store goes back: behind the fence no item
is taken twice.

PAUSES is how many pauses there are (6). PostgreSQL is Debian's server; python3-psycopg2 may be that of another Python here."""

from __future__ import annotations

import glob
import os
import pathlib
import random
import re
import shutil
import signal
import sqlite3
import subprocess
import sys
import tempfile
import time
import unittest
from collections.abc import Callable, Sequence
from typing import Any, Literal

import case
from case import CLIENT, ROOT, Case, T
from resetd_client import Port

PAUSES = int(os.environ.get("PAUSES", "6"))
MEMBERS, ITEMS = 8, 200_000
LONGEST = 900.0  # seconds: on a busy machine the workers take items slowly
PAUSED = (3, 7)  # while the store goes back
LOST = 2  # resets of which the copy of the store knows nothing
MOST_IDLE = 10_000  # milliseconds that a transaction waits for its worker, which may be paused, or only slow on a busy machine
SPARE, SPARE_STEPS = 60, 200  # a node that nobody is connected with, and steps at it of which the copy knows nothing either
TABLES = ("CREATE TABLE items (id INTEGER PRIMARY KEY)", "CREATE TABLE taken (item INTEGER NOT NULL, node INTEGER NOT NULL)",
          "CREATE INDEX taken_items ON taken (item)")
TWICE = "SELECT count(*) FROM (SELECT item FROM taken GROUP BY item HAVING count(*) > 1) AS twice"


def until(what: str, holds: Callable[[], T | Literal[False] | None]) -> T:
    return case.until(what, holds, LONGEST)


def statements() -> list[str]:
    """What makes the tables."""
    with open(f"{ROOT}/examples/fence.sql", encoding="utf-8") as file:
        lines = [line for line in file if not line.startswith("--")]
    return [*(each for each in "".join(lines).split(";") if each.strip()), *TABLES]


class Workers(Case):
    """examples/fenced, a process for each node of a star."""

    nodes = MEMBERS
    parent = "/tmp"

    def topology(self) -> str:
        return "".join([*(f"[[node]]\nid = {node}\ngroup = 1\n" for node in range(1, MEMBERS + 1)),
                        *(f"[[link]]\na = 1\nb = {node}\n" for node in range(2, MEMBERS + 1))])

    def start(self, database: str, *arguments: str, python: str = sys.executable) -> None:
        self.processes = [self.worker(node, database, python, arguments) for node in range(1, MEMBERS + 1)]

    def worker(self, node: int, database: str, python: str, arguments: Sequence[str]) -> subprocess.Popen[bytes]:
        with open(f"{self.folder}/{node}.lines", "ab") as lines:
            process = subprocess.Popen([python, f"{ROOT}/examples/fenced", str(node), f"unix:{self.proxy.path}", f"{self.folder}/{node}",
                                        database, *arguments], stdin=subprocess.DEVNULL, stdout=lines, stderr=lines)
        self.addCleanup(process.wait)
        self.addCleanup(process.kill)
        return process

    def rows(self) -> dict[int, list[Any]]:
        return {row[0]: row for row in self.proxy.ask(op="show")["nodes"]}

    def are_through(self, but: int = 0) -> bool:
        """Whether all are confirmed, but perhaps one."""
        return all(row[2] == "ready" and (row[4] == row[5] > 0 or node == but) for node, row in self.rows().items())

    def said(self) -> str:
        texts = []
        for node in range(1, MEMBERS + 1):
            with open(f"{self.folder}/{node}.lines", encoding="utf-8") as file:
                texts.append(file.read()[-300:])
        return "".join(texts)

    def pause_at_random(self, taken: Callable[[], int], seed: int, pauses: int) -> None:
        """Pauses a worker, resets the others, confirms for it by hand, and lets it go on once the others have taken items."""
        choice = random.Random(seed)
        until("workers that talk", self.are_through)
        for _ in range(pauses):
            self.await_more(taken, 20)
            paused = choice.randint(2, MEMBERS)
            self.pause(self.processes[paused - 1], choice)
            self.proxy.ask(op="reset", node=1)
            until("the others' confirms", lambda: self.are_through(but=paused))
            self.proxy.ask(op="confirm", node=paused, epoch=self.rows()[paused][4])
            until("a group that is through", self.are_through)
            self.await_more(taken, 40)
            self.processes[paused - 1].send_signal(signal.SIGCONT)
            until("a group that is through again", self.are_through)
        self.await_more(taken, 20)
        if any(process.poll() is not None for process in self.processes):
            self.fail(self.said())

    def put_the_store_back(self, database: str, count: Callable[[], int], taken: Callable[[], int], python: str = sys.executable) -> None:
        """The store goes back by some resets, while two workers are paused. Those of before are refused, and end; with the next
        generation all go on, and the two that were paused are refused."""
        until("workers that talk", self.are_through)
        copy = self.copy_store()
        orders: tuple[dict[str, Any], ...] = ({"op": "remove"}, {"op": "add", "group": 1})
        steps = [{"client": 9, "number": number, "node": SPARE, **orders[number % 2]} for number in range(1, SPARE_STEPS + 1)]
        self.assertEqual({answer.get("kind") for answer in Port(self.server.address).ask_many(steps) if isinstance(answer, dict)}, {"done"})
        for _ in range(LOST):
            self.proxy.ask(op="reset", node=1)
            until("a group that is through", self.are_through)
        self.await_more(taken, 10)
        for node in PAUSED:
            self.pause(self.processes[node - 1], random.Random(node))
        self.put_back(copy)
        others = [node for node in range(1, MEMBERS + 1) if node not in PAUSED]
        generation = self.restored(count())
        self.await_ends(others)
        self.assertIn(f"restored --fence {count()}", self.said())
        for node in others:
            self.processes[node - 1] = self.worker(node, database, python, ["--generation", generation])
        before = taken()
        until("items that are taken", lambda: self.confirm_for(PAUSED) and taken() >= before + 10)
        for node in PAUSED:
            self.processes[node - 1].send_signal(signal.SIGCONT)
        self.await_ends(PAUSED)
        for node in PAUSED:
            self.processes[node - 1] = self.worker(node, database, python, ["--generation", generation])
        until("a group that is through", self.are_through)
        self.await_more(taken, 10)

    def await_ends(self, nodes: Sequence[int]) -> None:
        """Waits until the workers of these nodes have ended, as the library has them end."""
        processes = [self.processes[node - 1] for node in nodes]
        until("their ends", lambda: self.confirm_for(PAUSED) and all(process.poll() is not None for process in processes))
        self.assertEqual({process.poll() for process in processes}, {1})

    def copy_store(self) -> bytes:
        """Kills the server, copies its store, and starts it again."""
        self.server.kill()
        copy = pathlib.Path(self.server.store).read_bytes()
        self.server.start()
        return copy

    def put_back(self, copy: bytes) -> None:
        self.server.kill()
        pathlib.Path(self.server.store).write_bytes(copy)
        self.server.start()

    def restored(self, count: int) -> str:
        """Runs `resetctl restored`, and returns the generation that it names."""
        done = subprocess.run([sys.executable, f"{CLIENT}/resetctl", "--address", self.server.address, "--state", f"{self.folder}/state",
                               "--patience", "600", "restored", "--fence", str(count)], capture_output=True, encoding="utf-8", check=False)
        found = re.search(r"start all members with generation (\d+)", done.stdout)
        assert found, (done.stdout, done.stderr)
        return found[1]

    def confirm_for(self, nodes: Sequence[int]) -> bool:
        """Confirms for these by hand, if all others have confirmed, so that the others talk."""
        rows = self.rows()
        if all(row[2] == "ready" and (row[4] == row[5] > 0 or node in nodes) for node, row in rows.items()):
            for node in nodes:
                if rows[node][4] > rows[node][5]:
                    self.proxy.ask(op="confirm", node=node, epoch=rows[node][4])
        return True

    def pause(self, process: subprocess.Popen[bytes], choice: random.Random) -> None:
        """Pauses a process where it holds no lock of the database that others wait for without end."""
        while True:
            time.sleep(choice.uniform(0, 0.01))
            process.send_signal(signal.SIGSTOP)
            if self.is_free():
                return
            process.send_signal(signal.SIGCONT)

    def is_free(self) -> bool:
        """Whether others may write."""
        return True

    def await_more(self, taken: Callable[[], int], more: int) -> None:
        before = taken()
        try:
            until("items that are taken", lambda: taken() >= before + more)
        except AssertionError as late:
            raise AssertionError(f"{late}: {self.said()}") from None


class OverSqlite(Workers):
    def setUp(self) -> None:
        super().setUp()
        self.path = f"{self.folder}/items.db"
        self.database = sqlite3.connect(self.path, timeout=60, isolation_level=None)
        self.addCleanup(self.database.close)
        self.database.execute("PRAGMA journal_mode = WAL")
        self.database.execute("PRAGMA synchronous = OFF")
        for statement in statements():
            self.database.execute(statement)
        self.database.execute("WITH RECURSIVE n (i) AS (SELECT 1 UNION ALL SELECT i + 1 FROM n WHERE i < ?) INSERT INTO items SELECT i FROM n", (ITEMS,))

    def number(self, query: str) -> int:
        return int(self.database.execute(query).fetchone()[0])

    def taken(self) -> int:
        return self.number("SELECT count(*) FROM taken")

    def is_free(self) -> bool:
        """The others wait in turn, so one that does not get its turn in a while is held by who is paused."""
        other = sqlite3.connect(self.path, timeout=2, isolation_level=None)
        try:
            other.execute("BEGIN IMMEDIATE")
            other.execute("ROLLBACK")
            return True
        except sqlite3.OperationalError:
            return False
        finally:
            other.close()

    def test_no_item_is_taken_twice(self) -> None:
        self.start(f"sqlite:{self.path}")
        self.pause_at_random(self.taken, 1, PAUSES)
        self.assertEqual(self.number(TWICE), 0)

    def test_the_store_goes_back(self) -> None:
        database = f"sqlite:{self.path}"
        self.start(database)
        self.put_the_store_back(database, lambda: self.number("SELECT count FROM fence"), self.taken)
        self.assertEqual(self.number(TWICE), 0)

    def test_without_the_fence_items_are_taken_twice(self) -> None:
        self.start(f"sqlite:{self.path}", "--without-fence")
        for seed in range(10):
            self.pause_at_random(self.taken, seed, PAUSES)
            if self.number(TWICE):
                return
        self.fail("no item was taken twice")


def python_with_psycopg2() -> str | None:
    for python in (sys.executable, "/usr/bin/python3"):
        if subprocess.run([python, "-c", "import psycopg2"], capture_output=True, check=False).returncode == 0:
            return python
    return None


class OverPostgres(Workers):
    """Debian's PostgreSQL, as its own user where this one is root: a server does not run as root."""

    def setUp(self) -> None:
        binaries = sorted(glob.glob("/usr/lib/postgresql/*/bin"))
        self.python = python_with_psycopg2()
        if not binaries or not self.python or not shutil.which("psql"):
            self.skipTest("it needs PostgreSQL and psycopg2")
        super().setUp()
        self.binaries = binaries[-1]
        self.user = ["runuser", "-u", "postgres", "--"] if os.getuid() == 0 else []
        self.data = tempfile.mkdtemp(dir="/tmp")
        self.addCleanup(shutil.rmtree, self.data, True)
        os.chmod(self.data, 0o777)
        self.ran([f"{self.binaries}/initdb", "-D", f"{self.data}/data", "-A", "trust", "-U", "resetd", "-N"])
        options = (f"-c listen_addresses='' -c unix_socket_directories={self.data} -c fsync=off -c idle_in_transaction_session_timeout="
                   f"{MOST_IDLE}")
        self.ran([f"{self.binaries}/pg_ctl", "-D", f"{self.data}/data", "-w", "-l", f"{self.data}/log", "-o", options, "start"])
        self.addCleanup(self.ran, [f"{self.binaries}/pg_ctl", "-D", f"{self.data}/data", "-m", "immediate", "stop"])
        self.database = f"postgresql:host={self.data} user=resetd dbname=postgres"
        for statement in [*statements(), f"INSERT INTO items SELECT generate_series(1, {ITEMS})"]:
            self.query(statement)

    def ran(self, command: list[str]) -> None:
        done = subprocess.run([*self.user, *command], stdin=subprocess.DEVNULL, stdout=subprocess.DEVNULL, stderr=subprocess.PIPE,
                              encoding="utf-8", cwd="/tmp", check=False, timeout=300)
        if done.returncode:
            raise AssertionError(f"{command}: {done.stderr}")

    def query(self, statement: str) -> str:
        done = subprocess.run(["psql", "-X", "-q", "-A", "-t", "-h", self.data, "-U", "resetd", "-d", "postgres", "-c", statement],
                              capture_output=True, encoding="utf-8", check=False)
        if done.returncode:
            raise AssertionError(f"{statement}: {done.stderr}")
        return done.stdout.strip()

    def taken(self) -> int:
        time.sleep(0.2)  # each query is a process
        return int(self.query("SELECT count(*) FROM taken"))

    def test_no_item_is_taken_twice(self) -> None:
        assert self.python
        self.start(self.database, python=self.python)
        self.pause_at_random(self.taken, 1, PAUSES)
        self.assertEqual(self.query(TWICE), "0")

    def test_the_store_goes_back(self) -> None:
        assert self.python
        self.start(self.database, python=self.python)
        self.put_the_store_back(self.database, lambda: int(self.query("SELECT count FROM fence")), self.taken, self.python)
        self.assertEqual(self.query(TWICE), "0")


if __name__ == "__main__":
    unittest.main()
