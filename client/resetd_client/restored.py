"""After a restore: asks for a reset in each group of linked nodes, so that no service mistakes its old start for the present
one.

A restored store may show an epoch as confirmed that a service began in another past. After the reset the node's epoch is
higher and unconfirmed, so its service begins again at its next look, whatever it had begun before.
"""

from __future__ import annotations

import time

from .answers import Away
from .orders import Orders
from .port import Port, patiently
from .view import Node, View

POLL_SECONDS = 0.05


def renew(port: Port, orders: Orders, seconds: float) -> str:
    """Asks for a reset in each group of linked nodes, waits until the epoch of every node has risen, and returns a message. It
    first finds the client's number, because a restore changes it. It may be repeated. Raises Away if a node's epoch has not
    risen within this many seconds."""
    patiently(orders.recover, seconds)
    view = first = patiently(port.show, seconds)
    until = time.monotonic() + seconds
    while lagging := not_risen(first, view):
        if time.monotonic() > until:
            raise Away(f"there is no new epoch yet at {named(lagging)}: run `resetctl resend`, and then this command again")
        for group in groups(view):
            due = [node for node in group if node.node in lagging]
            if due and all(node.mode == "ready" for node in group):
                reset(orders, due[0].node, view.accepted, seconds)
        time.sleep(POLL_SECONDS)
        view = patiently(port.show, seconds)
    return f"each of the {len(groups(first))} groups was reset, and all {len(first.nodes)} nodes have a new epoch"


def reset(orders: Orders, node: int, accepted: int, seconds: float) -> None:
    """Asks for one reset. Its step must be above `accepted`."""
    patiently(lambda: orders.order("reset", above=accepted, node=node), seconds)


def not_risen(first: View, view: View) -> frozenset[int]:
    """Returns the nodes whose epoch has not risen since the first view, among those that still exist."""
    epochs = {node.node: node.epoch for node in first.nodes}
    return frozenset(node.node for node in view.nodes if node.epoch <= epochs.get(node.node, -1))


def groups(view: View) -> list[tuple[Node, ...]]:
    """Returns the groups of linked nodes: a reset of one node reaches its whole group."""
    found: list[tuple[Node, ...]] = []
    rest = {node.node for node in view.nodes}
    while rest:
        group = view.connected(min(rest))
        found.append(group)
        rest -= {node.node for node in group}
    return found


def named(nodes: frozenset[int]) -> str:
    return f"node{'s' if len(nodes) > 1 else ''} {', '.join(map(str, sorted(nodes)))}"
