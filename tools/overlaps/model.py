"""The ideal reset rules of crates/coord_node/specs/Rules.antt, over nodes and messages alone, without numbers and receipts."""

from collections.abc import Sequence
from typing import NamedTuple

Edges = list[tuple[int, int]]
GRAPHS: dict[str, Edges] = {
    "link": [(0, 1)],
    "path3": [(0, 1), (1, 2)],
    "triangle": [(0, 1), (1, 2), (0, 2)],
    "star": [(0, 1), (0, 2), (0, 3)],
    "path4": [(0, 1), (1, 2), (2, 3)],
    "cycle4": [(0, 1), (1, 2), (2, 3), (0, 3)],
}
READY, ABORT, CONVERGE = 0, 1, 2


class Node(NamedTuple):
    mode: int = READY
    parent: int = -1
    awaited: int = 0  # the nodes whose Ack is awaited, one bit for each
    distance: int = 0


# A message: its letter, and the distance that an Abort carries. A lane has its messages in transit, and is None once its link was dropped.
Message = tuple[str, int]
Way = tuple[Message, ...] | None
ACK: Message = ("K", 0)
GO: Message = ("R", 0)


class Graph:
    """Nodes from 0 on, and their links."""

    def __init__(self, edges: Edges) -> None:
        self.edges, self.size = edges, 1 + max(max(edge) for edge in edges)
        self.lanes = [*edges, *((b, a) for a, b in edges)]
        self.at = {lane: way for way, lane in enumerate(self.lanes)}
        self.near = [sorted(b for a, b in self.lanes if a == u) for u in range(self.size)]


class World:
    """The nodes and the messages in transit over a graph, while one step is taken; `signalled` gets the nodes that it signals.
    `rule` names a wrong rule (tools/overlap_search lists them), and is empty for the right ones."""

    def __init__(self, graph: Graph, nodes: Sequence[Node], ways: Sequence[Way], rule: str = "") -> None:
        self.graph, self.rule = graph, rule
        self.nodes, self.ways = list(nodes), list(ways)
        self.signalled = list[int]()

    def near(self, u: int) -> list[int]:
        return [v for v in self.graph.near[u] if self.ways[self.graph.at[u, v]] is not None]

    def send(self, u: int, v: int, message: Message) -> None:
        way = self.graph.at[u, v]
        self.ways[way] = (*(self.ways[way] or ()), message)

    def put(self, u: int, **fields: int) -> None:
        self.nodes[u] = self.nodes[u]._replace(**fields)

    def finish(self, u: int) -> None:
        parent = self.nodes[u].parent
        for v in self.near(u):
            if v != parent or self.rule == "ready_to_parent":
                self.send(u, v, GO)
        self.nodes[u] = Node()
        if self.rule != ("silent_child" if parent >= 0 else "silent_initiator"):
            self.signalled.append(u)

    def wave(self, u: int, parent: int, to: list[int], distance: int) -> None:
        if len(to) > 1 and self.rule == ("one_left_out" if parent >= 0 else "start_one_left_out"):
            to = to[:-1]
        self.nodes[u] = Node(ABORT, parent, sum(1 << v for v in to), distance)
        for v in to:
            self.send(u, v, ("A", distance + 1))

    def turn(self, u: int, parent: int, distance: int) -> None:
        self.nodes[u] = Node(CONVERGE, parent, 0, distance)
        self.send(u, parent, ACK)

    def reset(self, u: int) -> bool:
        """Resets a node. Returns whether a reset was started."""
        mode = self.nodes[u].mode
        if mode == READY and self.rule == "joined_when_ready":
            return False
        if mode == READY and self.rule == "start_alone":
            self.signalled.append(u)
            return True
        if mode == READY and not self.near(u):
            self.finish(u)
            return False
        if mode == READY or mode == CONVERGE and self.rule == "starts_in_converge":
            self.wave(u, -1, self.near(u), 0)
            return True
        if self.rule == "request_finishes":
            self.finish(u)
        return False

    def acknowledged(self, u: int) -> None:
        parent = self.nodes[u].parent
        if parent >= 0 and self.rule != "child_finishes":
            self.turn(u, parent, self.nodes[u].distance)
            return
        self.finish(u)
        if parent >= 0:
            self.send(u, parent, ACK)

    def abort(self, u: int, v: int, distance: int) -> None:
        mode = self.nodes[u].mode
        if mode == READY or mode == CONVERGE and self.rule == "converge_joins_again":
            others = [x for x in self.near(u) if x != v]
            is_last = not others or self.rule == "no_pass_on"
            if is_last:
                self.turn(u, v, distance)
            else:
                self.wave(u, v, others, distance)
            if self.rule == ("turn_signals" if is_last else "pass_on_signals"):
                self.signalled.append(u)
            return
        self.send(u, v, ACK)
        if self.rule == "answer_signals":
            self.signalled.append(u)

    def ack(self, u: int, v: int) -> None:
        awaited = self.nodes[u].awaited
        if awaited >> v & 1:
            rest = 0 if self.rule == "first_ack_ends" else awaited & ~(1 << v)
            self.put(u, awaited=rest)
            if not rest:
                self.acknowledged(u)

    def take(self, way: int) -> None:
        v, u = self.graph.lanes[way]
        (letter, distance), *rest = self.ways[way] or ()
        self.ways[way] = tuple(rest)
        node = self.nodes[u]
        if letter == "A":
            self.abort(u, v, distance)
        elif letter == "K":
            self.ack(u, v)
        elif node.mode == CONVERGE and (node.parent == v or self.rule == "any_ready"):
            self.finish(u)

    def join(self, a: int, b: int) -> None:
        self.ways[self.graph.at[a, b]] = self.ways[self.graph.at[b, a]] = ()

    def drop(self, a: int, b: int) -> None:
        self.ways[self.graph.at[a, b]] = self.ways[self.graph.at[b, a]] = None
        for u, v in ((a, b), (b, a)):
            node = self.nodes[u]
            was_awaited, was_parent = node.awaited >> v & 1, node.parent == v
            self.put(u, awaited=node.awaited & ~(1 << v), parent=-1 if was_parent else node.parent)
            if node.mode == ABORT and was_awaited and not self.nodes[u].awaited:
                self.acknowledged(u)
            elif node.mode == CONVERGE and was_parent:
                self.finish(u)
            elif node.mode == READY and self.near(u) and self.rule == "drop_starts":
                self.wave(u, -1, self.near(u), 0)
