"""The server and the proxy are killed at random under load: no answer is lost, none is given to another, and each order is
carried out once. KILLS says how often (20)."""

from __future__ import annotations

import os
import random
import sys
import threading
import time
import unittest
from typing import Any

from case import Case, Client, Proxy, Server, until

KILLS = int(os.environ.get("KILLS", "20"))
CLIENTS = range(1, 9)


class Orderer(threading.Thread):
    """One client whose orders are unique: it adds and removes its own node in turn, and sends the same order again with the
    same number until it is answered. After each it looks, so that answers are of different forms."""

    def __init__(self, case: Kills, client: int) -> None:
        super().__init__(daemon=True)
        self.case, self.number = case, client
        self.steps: list[int] = []
        self.faults: list[str] = []

    def run(self) -> None:
        count = 0
        while not self.case.stop.is_set() and not self.faults:
            count += 1
            order = {"op": "add" if count % 2 else "remove", "client": self.number, "number": count, "node": 20 + self.number}
            answer = self.answered({**order, "group": 1} if count % 2 else order)
            if answer.get("kind") != "done" or self.steps and answer["step"] <= self.steps[-1]:
                self.faults.append(f"{order}: {answer}, after step {self.steps[-1:]}")
            else:
                self.steps.append(answer["step"])

    def answered(self, order: dict[str, Any]) -> dict[str, Any]:
        def answered() -> dict[str, Any] | None:
            try:
                with self.case.proxy.connect() as connection:
                    return self.both(connection, order)
            except OSError:
                return None
        return until(f"an answer to {order}", answered) or {}

    def both(self, connection: Client, order: dict[str, Any]) -> dict[str, Any]:
        """The answer to an order with a look after it. Raises ConnectionError."""
        connection.send(order, {"op": "show"})
        answer = connection.reply()
        if "refused" in answer and answer.get("name") == "Stopped":
            raise ConnectionError("not now")
        view = connection.reply()
        is_there = any(row[0] == order["node"] for row in view["nodes"])
        if "kind" in answer and is_there != (order["op"] == "add"):
            self.faults.append(f"{order}: {answer}, and then {view}")
        return answer


class Kills(Case):
    nodes = 4

    def test_kills(self) -> None:
        seed = int(os.environ.get("SEED", "0")) or random.randrange(1 << 30)
        chance = random.Random(seed)
        self.stop, self.killed = threading.Event(), {"server": 0, "proxy": 0}
        orderers = [Orderer(self, number) for number in CLIENTS]
        for orderer in orderers:
            orderer.start()
        try:
            for _ in range(KILLS):
                self.kill(chance)
                self.progress(orderers)
        finally:
            self.stop.set()
        for orderer in orderers:
            orderer.join()
            self.assertEqual(orderer.faults, [], f"SEED={seed}")
        steps = sorted(step for orderer in orderers for step in orderer.steps)
        self.assertEqual(len(steps), len(set(steps)), f"one step answers two orders (SEED={seed})")
        self.each_was_carried_out_once(orderers, seed)
        print(f"{self.killed['server']} kills of the server and {self.killed['proxy']} of the proxy: {len(steps)} orders, each carried "
              "out once and answered to whoever gave it", file=sys.stderr)

    def each_was_carried_out_once(self, orderers: list[Orderer], seed: int) -> None:
        """The store has made as many steps as were answered, beside those of its topology."""
        view = self.server.await_settled()
        made = view["accepted"] - 8
        self.assertEqual(made, sum(len(orderer.steps) for orderer in orderers), f"SEED={seed}")

    def kill(self, chance: random.Random) -> None:
        time.sleep(chance.random() / 20)  # any moment will do
        name = chance.choice(("server", "proxy"))
        self.killed[name] += 1
        killed: Server | Proxy = self.server if name == "server" else self.proxy
        killed.kill()
        killed.start()

    def progress(self, orderers: list[Orderer]) -> None:
        """Somebody was answered since the kill."""
        before = sum(len(orderer.steps) for orderer in orderers)
        until("an answer after a kill", lambda: sum(len(orderer.steps) for orderer in orderers) > before
              or any(orderer.faults for orderer in orderers))


if __name__ == "__main__":
    unittest.main()
