"""Explanations of rejected orders for a person: the cause that was found, and what to do."""

from __future__ import annotations

from collections.abc import Iterable, Mapping
from typing import Any

from .answers import Fault, Faulted, NotNow, NotTaken, Refusal, Refused
from .view import Node, View

# The last column of the table of refusals in docs/PROTOCOL.md, in its words; some refusals say all by themselves.
WHAT_TO_DO = {
    Refusal.STOPPED: "after the server's next start, send the same order with the same number; `close` ends the server",
    Refusal.OUT_OF_MEMORY: "send the same order again",
    Refusal.EXHAUSTED: "this store can take no further steps: make a new store",
    Refusal.OUT_OF_TURN: "the client has lost its order number, or the store is an older copy: recover the number with `resetctl count`",
    Refusal.NUMBER_REUSED: "two processes send as the same client, or the client has lost its order number: recover the number with `resetctl count`",
    Refusal.UNKNOWN_NODE: "`show` lists the nodes that exist",
    Refusal.HAS_LINKS: "drop the node's links first",
    Refusal.OTHER_GROUP: "to change a node's group, remove the node and add it again",
    Refusal.NO_LINK: "old packets are always refused: discard the packet",
    Refusal.DEGREE_FULL: "drop one of the node's links first",
    Refusal.LINKS_FULL: "drop another link first",
    Refusal.BAD_EPOCH: "the epoch was confirmed before, or the node has gone back to a lower epoch: compare the epochs in `show`",
    Refusal.OLD: "do nothing: repeated packets are expected",
    Refusal.EARLY: "`resend` shows which packets are due",
    Refusal.DIFFERS: "this coordinator did not send the packet: find out where it came from",
    Refusal.NOT_RELEASED: "this coordinator has not released the packet: find out where it came from",
    Refusal.PENDING_FULL: "send the same order again after a while",
}

RANGES = "nodes must be 1 to 64, groups and clients 1 to 16, order numbers and epochs below 2^64"
WHAT_IS_WRONG = {
    Fault.UNFINISHED: "the line does not end with a line feed",
    Fault.TOO_LONG: "a line may have at most 512 bytes",
    Fault.BAD_TEXT: "a line must be UTF-8",
    Fault.BAD_JSON: "a line must be one JSON object",
    Fault.BAD_REQUEST: f"{RANGES}; nothing was carried out",
    Fault.UNKNOWN_OP: "this coordinator does not know the command",
}
MOST_AT_NODE, MOST_LINKS = 16, 128


def explained(fault: NotTaken | NotNow, order: Mapping[str, Any], view: View | None = None) -> str:
    """Explains a refusal or a fault: the cause that the present view shows, or else what to do."""
    text = ""
    if isinstance(fault, Refused) and fault.refusal is not None:
        text = (found(fault.refusal, order, view) if view else "") or WHAT_TO_DO.get(fault.refusal, "")
    elif isinstance(fault, Faulted) and fault.fault is not None:
        text = WHAT_IS_WRONG.get(fault.fault, "")
    elif isinstance(fault, NotNow):
        text = next((WHAT_TO_DO[each] for each in (Refusal.STOPPED, Refusal.OUT_OF_MEMORY, Refusal.PENDING_FULL)
                     if each.name.replace("_", "").lower() == fault.name.lower()), "")
    return f"{fault}: {text}" if text else str(fault)


def found(refusal: Refusal, order: Mapping[str, Any], view: View) -> str:
    """Explains a refused order by the present view. Returns an empty text if the view has changed since, so that the order
    would now be accepted."""
    names = [int(order[name]) for name in ("node", "a", "b") if name in order]
    rows = {row.node: row for row in view.nodes}
    absent = [node for node in names if node not in rows]
    if refusal is Refusal.UNKNOWN_NODE and absent:
        return f"node {absent[0]} does not exist; the nodes are {numbers(rows) or 'none'}"
    if absent or not names:
        return ""
    return of_node(refusal, rows[names[0]], view) if len(names) == 1 else of_ends(refusal, rows[names[0]], rows[names[1]], view)


def of_node(refusal: Refusal, row: Node, view: View) -> str:
    """Like `found`, for an order that names one node."""
    if refusal is Refusal.NODE_EXISTS:
        return f"node {row.node} already exists, in group {row.group}"
    if refusal is Refusal.HAS_LINKS and (near := linked_with(row.node, view)):
        return f"node {row.node} is linked with {numbers(near)}: drop these links first"
    if refusal is Refusal.BAD_EPOCH:
        return f"node {row.node} is at epoch {row.epoch}, and its last confirmed epoch is {row.confirmed}"
    return ""


def of_ends(refusal: Refusal, a: Node, b: Node, view: View) -> str:
    """Like `found`, for an order that names the two ends of a link."""
    near = {row.node: linked_with(row.node, view) for row in (a, b)}
    if refusal is Refusal.SAME_NODE:
        return "a link must join two different nodes"
    if refusal is Refusal.OTHER_GROUP:
        return f"node {a.node} is in group {a.group}, and node {b.node} is in group {b.group}: " + WHAT_TO_DO[refusal]
    if refusal is Refusal.LINK_EXISTS and b.node in near[a.node]:
        return f"nodes {a.node} and {b.node} are already linked"
    if refusal is Refusal.NO_LINK and b.node not in near[a.node]:
        return f"nodes {a.node} and {b.node} are not linked; node {a.node} is linked with {numbers(near[a.node]) or 'none'}"
    if refusal is Refusal.DEGREE_FULL and (full := [node for node in near if len(near[node]) >= MOST_AT_NODE]):
        return f"node {full[0]} has {MOST_AT_NODE} links: drop one first"
    if refusal is Refusal.LINKS_FULL and len(view.links) >= MOST_LINKS:
        return f"the network already has {MOST_LINKS} links: drop one first"
    return ""


def linked_with(node: int, view: View) -> list[int]:
    return sorted({link.a + link.b - node for link in view.links if node in (link.a, link.b)})


def numbers(nodes: Iterable[int]) -> str:
    return ", ".join(str(node) for node in sorted(nodes))
