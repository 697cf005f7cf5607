"""Topology files, and the orders that change a network into that of a file."""

from __future__ import annotations

import tomllib
from collections.abc import Iterable, Iterator
from dataclasses import dataclass, field
from typing import Any

from .errors import ResetdError
from .limits import GROUPS, MOST_LINKS, MOST_LINKS_AT_NODE, NODES
from .view import View

MOST_BYTES = 65_536
HALVES = range(32_768, 16_777_217)

Pair = tuple[int, int]


class BadTopology(ResetdError):
    """The file is not a topology, or its network can't exist. `name` is the name of the fault that `resetd init` reports. Needs
    a person: the file's author."""

    def __init__(self, name: str, text: str) -> None:
        super().__init__(f"{name}: {text}")
        self.name = name


@dataclass
class Network:
    """Nodes with their groups, and links as pairs with the smaller number first."""

    groups: dict[int, int] = field(default_factory=dict)
    links: set[Pair] = field(default_factory=set)

    @staticmethod
    def of(view: View) -> Network:
        """Returns the network that a view shows."""
        return Network({node.node: node.group for node in view.nodes}, {pair(link.a, link.b) for link in view.links})

    def degree(self, node: int) -> int:
        return sum(node in link for link in self.links)

    def links_of(self, nodes: Iterable[int]) -> set[Pair]:
        """Returns the links that have an end among these nodes."""
        ends = set(nodes)
        return {link for link in self.links if ends & set(link)}


def pair(a: int, b: int) -> Pair:
    return (a, b) if a < b else (b, a)


@dataclass(frozen=True)
class Order:
    """An order in a plan, with a note for a person."""

    op: str
    members: dict[str, int]
    note: str = ""

    def __str__(self) -> str:
        line = " ".join([self.op, *map(str, self.members.values())])
        return f"{line}    # {self.note}" if self.note else line


def read_topology(text: bytes) -> Network:
    """Reads the network in a topology file. Like `resetd init`, it checks keys before values, and values before the rows.
    Raises BadTopology."""
    if len(text) > MOST_BYTES:
        raise BadTopology("NotToml", f"the file has more than {MOST_BYTES} bytes")
    try:
        top = tomllib.loads(text.decode("utf-8"))
    except (ValueError, RecursionError) as fault:
        raise BadTopology("NotToml", f"not TOML: {fault}") from None
    check_keys(top, required=set(), optional={"half", "node", "link"}, where="the top")
    for key, members in (("node", {"id", "group"}), ("link", {"a", "b"})):
        for row in tables(top, key):
            check_keys(row, required=members, optional=set(), where=f"a [[{key}]]")
    number(top.get("half", HALVES[0]), HALVES, "half")
    nodes = [(number(row["id"], NODES, "id"), number(row["group"], GROUPS, f"group of node {row['id']}"))
             for row in tables_alone(top, "node")]
    links = [(number(row["a"], NODES, "a"), number(row["b"], NODES, "b")) for row in tables_alone(top, "link")]
    network = Network()
    for node, group in nodes:
        if node in network.groups:
            raise BadTopology("7 NodeExists", f"node {node} occurs twice")
        network.groups[node] = group
    for a, b in links:
        add_link(network, a, b)
    return network


def add_link(network: Network, a: int, b: int) -> None:
    """Adds a link, if the network can have it. Raises BadTopology."""
    for end in (a, b):
        if end not in network.groups:
            raise BadTopology("6 UnknownNode", f"link {a} {b}: there is no node {end}")
    if a == b:
        raise BadTopology("9 SameNode", f"link {a} {b}: both ends are the same node")
    if network.groups[a] != network.groups[b]:
        raise BadTopology("10 OtherGroup", f"link {a} {b}: the nodes are in different groups")
    if pair(a, b) in network.links:
        raise BadTopology("11 LinkExists", f"link {a} {b} occurs twice")
    network.links.add(pair(a, b))
    if max(network.degree(a), network.degree(b)) > MOST_LINKS_AT_NODE:
        raise BadTopology("13 DegreeFull", f"link {a} {b}: a node may have at most {MOST_LINKS_AT_NODE} links")
    if len(network.links) > MOST_LINKS:
        raise BadTopology("14 LinksFull", f"the topology has more than {MOST_LINKS} links")


def tables(top: dict[str, Any], key: str) -> Iterator[dict[str, Any]]:
    """Returns the tables that are items of an array; other items are skipped."""
    rows = top.get(key, [])
    return (row for row in (rows if isinstance(rows, list) else []) if isinstance(row, dict))


def tables_alone(top: dict[str, Any], key: str) -> Iterator[dict[str, Any]]:
    """Returns the tables of an array. Raises BadTopology if the value is not an array, or has other items."""
    rows = top.get(key, [])
    if not isinstance(rows, list) or not all(isinstance(row, dict) for row in rows):
        raise BadTopology("BadValue", f"{key} must be written as [[{key}]]")
    return tables(top, key)


def check_keys(table: dict[str, Any], required: set[str], optional: set[str], where: str) -> None:
    """Raises BadTopology if a table lacks a required key, or has an unknown one."""
    if missing := required - set(table):
        raise BadTopology("BadKey", f"{where} lacks {' and '.join(sorted(missing))}")
    if extra := set(table) - required - optional:
        raise BadTopology("BadKey", f"{where} has an unknown key: {', '.join(sorted(extra))}")


def number(value: Any, limits: range, what: str) -> int:
    """Reads a whole number within a range. Raises BadTopology."""
    if not isinstance(value, int) or isinstance(value, bool) or value not in limits:
        raise BadTopology("BadValue", f"{what} must be a whole number from {limits[0]} to {limits[-1]}")
    return value


def plan(have: Network, want: Network) -> list[Order]:
    """Returns the orders that change one network into the other. They remove the nodes whose group changes and add them again,
    add nodes, join links before they drop others, so that no node is cut off meanwhile, and then remove nodes. If there is
    no room for a join, a link that is to go is dropped first, and the order has a note about that."""
    now = Network(dict(have.groups), set(have.links))
    orders: list[Order] = []

    def order(op: str, note: str = "", **members: int) -> None:
        orders.append(Order(op, members, note))

    def drop(link: Pair, note: str = "") -> None:
        now.links.remove(link)
        order("drop", note, a=link[0], b=link[1])

    regrouped = sorted(n for n in have.groups if n in want.groups and have.groups[n] != want.groups[n])
    for link in sorted(now.links_of(regrouped)):
        drop(link, "the group of a linked node changes")
    for node in regrouped:
        order("remove", f"the node's group changes from {have.groups[node]} to {want.groups[node]}", node=node)
        order("add", "the node's epochs begin again", node=node, group=want.groups[node])
    for node in sorted(set(want.groups) - set(have.groups)):
        order("add", node=node, group=want.groups[node])
    for link in sorted(want.links - now.links):
        for room in rooms(now, want, link):
            drop(room, f"this makes room for the link between {link[0]} and {link[1]}")
        now.links.add(link)
        order("join", a=link[0], b=link[1])
    for link in sorted(now.links - want.links):
        drop(link)
    for node in sorted(set(have.groups) - set(want.groups)):
        order("remove", node=node)
    return orders


def rooms(now: Network, want: Network, link: Pair) -> list[Pair]:
    """Returns the links that must be dropped before a link can be joined, among those to be dropped."""
    going, chosen = now.links - want.links, set[Pair]()
    for end in link:
        if now.degree(end) - sum(end in other for other in chosen) >= MOST_LINKS_AT_NODE:
            chosen.add(min(other for other in going if end in other))
    if len(now.links) - len(chosen) >= MOST_LINKS:
        chosen.add(min(going - chosen))
    return sorted(chosen)
