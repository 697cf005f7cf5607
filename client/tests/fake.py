"""A coordinator in memory for tests of the library: it judges lines, numbers and orders as the program does
(`test_fake.py` compares the two), and its resets are over at once."""

from __future__ import annotations

import json
from typing import Any

from wire import MOST_BYTES, Wire

NAMES = {1: "Stopped", 4: "OutOfTurn", 5: "NumberReused", 6: "UnknownNode", 7: "NodeExists", 8: "HasLinks", 9: "SameNode",
         10: "OtherGroup", 11: "LinkExists", 12: "NoLink", 13: "DegreeFull", 14: "LinksFull", 15: "BadEpoch",
         20: "PendingFull"}
MEMBERS = {"add": ("node", "group"), "remove": ("node",), "reset": ("node",), "join": ("a", "b"), "drop": ("a", "b"),
           "confirm": ("node", "epoch")}
WORD = range(1 << 64)
RANGES = {"client": range(1, 17), "number": WORD, "node": range(1, 65), "group": range(1, 17), "a": range(1, 65),
          "b": range(1, 65), "epoch": WORD}


class Refuse(Exception):
    """An order is refused."""


class Wrong(Exception):
    """A line is not a request."""


class Fake(Wire):
    """The coordinator. Its world is in plain attributes, which a test may change."""

    is_real = False

    def __init__(self) -> None:
        self.nodes: dict[int, list[int]] = {}  # group, epoch, confirmed
        self.links: dict[tuple[int, int], int] = {}
        self.sessions: dict[int, tuple[int, dict[str, Any], dict[str, Any]]] = {}
        self.steps = 0
        super().__init__()

    def ring(self, nodes: int) -> None:
        """Makes a row of linked nodes, without orders."""
        for node in range(1, nodes + 1):
            self.nodes[node] = [1, 0, 0]
        for node in range(1, nodes):
            self.steps += 1
            self.links[(node, node + 1)] = self.steps
        self.steps += nodes

    def row(self, node: int) -> list[int]:
        """Returns a node's group, epoch and confirmed epoch."""
        return self.nodes[node]

    def last(self, client: int) -> int:
        """Returns the number of a client's last order."""
        return self.sessions[client][0] if client in self.sessions else 0

    def pairs(self) -> list[tuple[int, int]]:
        return sorted(self.links)

    def await_settled(self) -> None:
        """Waits until no node is in a reset; here resets end immediately."""

    def copy(self) -> Any:
        """Returns what a copy of the store would contain."""
        return json.loads(json.dumps({
            "nodes": list(self.nodes.items()), "links": [[*k, v] for k, v in self.links.items()],
            "sessions": list(self.sessions.items()), "steps": self.steps}))

    def restore(self, copy: Any) -> None:
        self.nodes = {int(node): list(row) for node, row in copy["nodes"]}
        self.links = {(a, b): inc for a, b, inc in copy["links"]}
        self.sessions = {int(client): (last, order, reply) for client, (last, order, reply) in copy["sessions"]}
        self.steps = copy["steps"]

    def reset(self, node: int) -> None:
        """Makes a reset that another client asked for."""
        reached, rest = {node}, [node]
        while rest:
            at = rest.pop()
            for a, b in self.links:
                for other in ({a, b} - {at} if at in (a, b) else set()) - reached:
                    reached.add(other)
                    rest.append(other)
        for each in reached:
            self.nodes[each][1] += 1

    def respond(self, line: bytes) -> str:
        try:
            answer = self.answer(request_of(line))
        except Wrong as wrong:
            answer = {"fault": str(wrong)}
        return json.dumps(answer, separators=(",", ":"))

    def answer(self, request: dict[str, Any]) -> dict[str, Any]:
        op = request["op"]
        if op == "show" and not self.is_stopped:
            return {"accepted": self.steps, "links": [[a, b, inc] for (a, b), inc in sorted(self.links.items())],
                    "nodes": [[n, g, "ready", 0, e, c] for n, (g, e, c) in sorted(self.nodes.items())],
                    "settled": self.steps}
        if op == "resend":
            return {"count": 0, "kind": "resent"}
        if op == "close":
            return {"kind": "closed"}
        try:
            return self._order(request)
        except Refuse as refused:
            number = int(str(refused))
            return {"name": NAMES[number], "refused": number}

    def _order(self, request: dict[str, Any]) -> dict[str, Any]:
        if self.is_stopped:
            raise Refuse(1)
        client, number = request["client"], request["number"]
        order = {name: value for name, value in request.items() if name not in ("client", "number")}
        last, kept, reply = self.sessions.get(client, (0, {}, {}))
        if number == last and last and kept == order:
            return reply
        if number not in (last, last + 1) or number == 0:
            raise Refuse(4)
        if number == last:
            raise Refuse(5)
        kind = self._carry_out(order)
        self.steps += 1
        reply = {"kind": kind, "step": self.steps}
        self.sessions[client] = (number, order, reply)
        return reply

    def _carry_out(self, order: dict[str, Any]) -> str:
        op, node = order["op"], order.get("node", 0)
        if op == "add":
            if node in self.nodes:
                raise Refuse(7)
            self.nodes[node] = [order["group"], 0, 0]
            return "done"
        if op in ("join", "drop"):
            return self._link(op, min(order["a"], order["b"]), max(order["a"], order["b"]))
        if node not in self.nodes:
            raise Refuse(6)
        if op == "remove":
            if any(node in link for link in self.links):
                raise Refuse(8)
            del self.nodes[node]
        elif op == "confirm":
            row = self.nodes[node]
            if not row[2] < order["epoch"] <= row[1]:
                raise Refuse(15)
            row[2] = order["epoch"]
        else:
            self.reset(node)
            return "started" if any(node in link for link in self.links) else "finished"
        return "done"

    def _link(self, op: str, a: int, b: int) -> str:
        if a not in self.nodes or b not in self.nodes:
            raise Refuse(6)
        if a == b:
            raise Refuse(9)
        if op == "drop":
            if (a, b) not in self.links:
                raise Refuse(12)
            del self.links[(a, b)]
            return "done"
        if self.nodes[a][0] != self.nodes[b][0]:
            raise Refuse(10)
        if (a, b) in self.links:
            raise Refuse(11)
        if any(sum(end in link for link in self.links) >= 16 for end in (a, b)):
            raise Refuse(13)
        if len(self.links) >= 128:
            raise Refuse(14)
        self.links[(a, b)] = self.steps + 1
        return "done"


def request_of(line: bytes) -> dict[str, Any]:
    """Returns the request of a line. Raises Wrong."""
    if not line.endswith(b"\n"):
        raise Wrong("Unfinished")
    if len(line) > MOST_BYTES + 1:
        raise Wrong("TooLong")
    try:
        text = line[:-1].decode("utf-8")
    except UnicodeDecodeError:
        raise Wrong("BadText") from None
    try:
        request = json.loads(text, parse_constant=refuse_constant)
    except ValueError:
        raise Wrong("BadJson") from None
    if not isinstance(request, dict) or not isinstance(request.get("op"), str):
        raise Wrong("BadRequest")
    op = request["op"]
    if op not in MEMBERS and op not in ("show", "resend", "close"):
        raise Wrong("UnknownOp")
    members = ("client", "number", *MEMBERS[op]) if op in MEMBERS else ()
    if set(request) != {"op", *members} or not all(
            isinstance(request[name], int) and not isinstance(request[name], bool) and request[name] in RANGES[name]
            for name in members):
        raise Wrong("BadRequest")
    return request


def refuse_constant(name: str) -> None:
    raise ValueError(f"{name} is not JSON")
