"""The view that `show` returns: typed rows of nodes and links, and the group states derived from them."""

from __future__ import annotations

from collections.abc import Mapping
from dataclasses import dataclass
from functools import cached_property
from typing import Any, NamedTuple

from .party import Party, tag_of


class Node(NamedTuple):
    """A node's row. `mode` is `ready`, or `abort` or `converge` while the node is in a reset; `parent` is 0 if it has none;
    `epoch` counts the node's signals, and `confirmed` is the last epoch that a service has confirmed."""

    node: int
    group: int
    mode: str
    parent: int
    epoch: int
    confirmed: int

    @property
    def is_begun(self) -> bool:
        """Returns whether the node is in no reset, and its service has confirmed the present epoch."""
        return self.mode == "ready" and self.epoch == self.confirmed


class Link(NamedTuple):
    """A link's row: both ends, and the number of the step that made it."""

    a: int
    b: int
    incarnation: int


@dataclass(frozen=True)
class Part:
    """Nodes that links connect with each other, in ascending order, and these links: a reset of one node reaches all of them.
    Derived values are computed once, because all members of a gateway ask for them."""

    nodes: tuple[Node, ...] = ()
    links: tuple[Link, ...] = ()

    @cached_property
    def is_through(self) -> bool:
        """Returns whether none of the nodes is in a reset, and all have begun."""
        return all(node.is_begun for node in self.nodes)

    @cached_property
    def is_quiet(self) -> bool:
        """Returns whether none of the nodes is in a reset."""
        return all(node.mode == "ready" for node in self.nodes)

    @cached_property
    def party(self) -> Party:
        """Returns the party: each node with its epoch, and the links (party.py)."""
        return frozenset([*(f"{node.node} {node.epoch}" for node in self.nodes),
                          *(f"{link.a} {link.b} {link.incarnation}" for link in self.links)])


@dataclass(frozen=True)
class View:
    """The settled world: the numbers of accepted and of settled steps, and the rows."""

    accepted: int
    settled: int
    nodes: tuple[Node, ...]
    links: tuple[Link, ...]

    @staticmethod
    def of(answer: Mapping[str, Any]) -> View:
        """Returns the view in an answer's members. Ignores members that a later version adds to a row."""
        return View(
            int(answer["accepted"]), int(answer["settled"]),
            tuple(Node(int(n), int(g), str(mode), int(parent), int(e), int(c))
                  for n, g, mode, parent, e, c, *_ in answer["nodes"]),
            tuple(Link(int(a), int(b), int(inc)) for a, b, inc, *_ in answer["links"]))

    def members(self) -> dict[str, Any]:
        """Returns this view as the JSON members of a `show` answer."""
        return {"accepted": self.accepted, "links": [list(link) for link in self.links],
                "nodes": [list(node) for node in self.nodes], "settled": self.settled}

    def node(self, number: int) -> Node | None:
        """Returns the row of a node, or None if the node does not exist."""
        return next((node for node in self.nodes if node.node == number), None)

    def part(self, number: int) -> Part:
        """Returns the part of a node, or None if the node does not exist."""
        return self._parts.get(number, Part())

    def connected(self, number: int) -> tuple[Node, ...]:
        """Returns the rows of a node and of all nodes that links connect with it, in ascending order: a reset of one of them
        reaches all. None if the node does not exist."""
        return self.part(number).nodes

    def awaited(self, number: int) -> tuple[Node, ...]:
        """Returns the connected nodes that are not through: they are in a reset, or have not confirmed."""
        return tuple(node for node in self.connected(number) if not node.is_begun)

    def party(self, number: int) -> Party:
        """Returns the party of a node, which names a run: the nodes connected with it, each with its epoch, and the links
        between them (party.py)."""
        return self.part(number).party

    @cached_property
    def _parts(self) -> dict[int, Part]:
        """Returns the part of each node."""
        near: dict[int, list[int]] = {node.node: [] for node in self.nodes}
        for link in self.links:
            near.setdefault(link.a, []).append(link.b)
            near.setdefault(link.b, []).append(link.a)
        first: dict[int, int] = {}  # for each node, the node from which its part was found
        for node in self.nodes:
            rest = [node.node]
            while rest:
                if (here := rest.pop()) not in first:
                    first[here] = node.node
                    rest += near[here]
        parts = {each: Part(tuple(node for node in self.nodes if first[node.node] == each),
                            tuple(link for link in self.links if first.get(link.a) == each)) for each in set(first.values())}
        return {node.node: parts[first[node.node]] for node in self.nodes}

    def tag(self, number: int, word: str = "") -> str:
        """Returns the tag of a start of this node that first talks in this view (party.py); empty if it is alone. The whole
        group shares `word`."""
        party = self.party(number)
        return tag_of(party, party, word)
