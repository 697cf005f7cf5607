"""The coordinator in memory answers like the program: both get the same lines, chosen by hand and at random."""

from __future__ import annotations

import json
import random
import unittest
from typing import Any

from case import PROGRAM
from fake import Fake
from real import Real

ORDER = {"op": "reset", "client": 1, "number": 1, "node": 1}
WRONG_LINES = [
    b"\n", b"{}\n", b"[]\n", b"3\n", b"null\n", b'"show"\n', b"x\n", b"{\n", b'{"op":"show"}}\n', b'{"op":3}\n', b'{"op":null}\n',
    b'{"op":"fly"}\n', b'{"op":"fly","node":65}\n', b'{"op":"show","node":1}\n', b'{"op":"close","x":1}\n', b"\xff\n",
    b'{"op":"\xff"}\n', b'{"op":NaN}\n', b'{"op":"show"', b'{"op":"show"}', b" " * 513 + b"\n", b" " * 512 + b"\n",
    b'{"op":"show"}' + b" " * 499 + b"\n", b'{"op":"show"}' + b" " * 500 + b"\n", b'  {"op" : "resend"}\t\r\n',
    b'{"op":"reset","client":1,"number":1}\n', b'{"op":"reset","client":1,"node":1}\n', b'{"op":"reset","number":1,"node":1}\n']
VALUES: list[Any] = [-1, 0, 1, 2, 16, 17, 64, 65, (1 << 64) - 1, 1 << 64, 1.0, 1e3, True, None, "1", [1], {}]


def lines() -> list[bytes]:
    """Returns lines that are no requests, requests with each member out of its range or of another type, and repeats."""
    found = list(WRONG_LINES)
    for order in (ORDER, {"op": "add", "client": 1, "number": 1, "node": 1, "group": 1},
                  {"op": "join", "client": 1, "number": 1, "a": 1, "b": 2},
                  {"op": "confirm", "client": 1, "number": 1, "node": 1, "epoch": 0}):
        for member in order:
            if member == "op":
                continue
            found += [line({**order, member: value}) for value in VALUES]
            found.append(line({name: value for name, value in order.items() if name != member}))
        found.append(line({**order, "more": 1}))
    return found


def line(request: dict[str, Any]) -> bytes:
    return json.dumps(request, separators=(",", ":")).encode() + b"\n"


def drawn(choice: random.Random, numbers: dict[int, int]) -> dict[str, Any]:
    """Returns a random order among few nodes, mostly with the next number of its client."""
    client = choice.choice([1, 2, 3])
    number = numbers.get(client, 0) + choice.choice([0, 1, 1, 1, 1, 1, 2, -1])
    node, other = choice.randint(1, 5), choice.randint(1, 5)
    op = choice.choice(["add", "add", "remove", "join", "join", "drop", "reset", "confirm"])
    members = {"add": {"node": node, "group": choice.choice([1, 1, 1, 2])}, "join": {"a": node, "b": other},
               "drop": {"a": node, "b": other}, "confirm": {"node": node, "epoch": choice.randint(0, 3)}}
    return {"op": op, "client": client, "number": max(number, 0), **members.get(op, {"node": node})}


@unittest.skipUnless(PROGRAM, "RESETD names no program to compare with")
class Alike(unittest.TestCase):
    def setUp(self) -> None:
        self.fake, self.real = Fake(), Real(PROGRAM)
        self.addCleanup(self.fake.close)
        self.addCleanup(self.real.close)

    def compare(self, text: bytes) -> dict[str, Any]:
        """Compares the two answers, except the numbers of steps, because the program's resets take further steps."""
        answers: list[dict[str, Any]] = [json.loads(self.fake.respond(text)), json.loads(self.real.respond(text))]
        for answer in answers:
            answer.pop("step", None)
        if answers[1].get("kind") == "resent":
            answers[1]["count"] = 0
        if "nodes" in answers[1]:
            self.real.await_settled()
        self.assertEqual(without_steps(answers[0]), without_steps(answers[1]), text)
        return answers[0]

    def test_lines(self) -> None:
        for text in lines():
            if b'"close"' in text and b"x" not in text:
                continue
            self.compare(text)

    def test_orders_at_random(self) -> None:
        choice, numbers = random.Random(55), dict[int, int]()
        seen = set()
        for _ in range(400):
            order = drawn(choice, numbers)
            answer = self.compare(line(order))
            seen.add(answer.get("name", answer.get("kind")))
            if "kind" in answer:
                numbers[order["client"]] = order["number"]
            if order["op"] == "reset":
                self.real.await_settled()
            if choice.random() < 0.02:
                self.compare(line({"op": "show"}))
        self.assertLessEqual({"done", "started", "finished", "OutOfTurn", "NumberReused", "UnknownNode", "NodeExists", "HasLinks",
                              "SameNode", "OtherGroup", "LinkExists", "NoLink", "BadEpoch"}, seen)

    def test_degrees_and_links_that_are_full(self) -> None:
        number = 0
        pairs = [(a, b) for a in range(1, 19) for b in range(a + 1, 19)]
        for order in [*[{"op": "add", "node": node, "group": 1} for node in range(1, 19)],
                      *[{"op": "join", "a": a, "b": b} for a, b in pairs]]:
            answer = self.compare(line({**order, "client": 1, "number": number + 1}))
            number += "kind" in answer
        self.assertEqual(len(self.fake.links), 128)


def without_steps(answer: dict[str, Any]) -> dict[str, Any]:
    if "nodes" not in answer:
        return answer
    return {"nodes": answer["nodes"], "links": [row[:2] for row in answer["links"]]}
