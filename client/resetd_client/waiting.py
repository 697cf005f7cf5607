"""The members for which a group waits: those that have not confirmed, since when, and their last signs of life."""

from __future__ import annotations

import json
from collections.abc import Iterable, Iterator, Mapping
from typing import Any

from .finding import Finding
from .view import Node, Part, View

AUDIT = "/var/log/resetd-proxy/audit"  # it has the times
Entry = Mapping[str, Any]


def of_groups(view: View, audit: str) -> Iterator[Finding]:
    """Yields, for each group that is not through, what it waits for. `audit` is the path of the proxy's audit file, which has the
    times."""
    parts = {part.nodes[0].node: part for node in view.nodes if not (part := view.part(node.node)).is_through}
    if not parts:
        return
    entries, fault = read_entries(audit)
    for part in parts.values():
        yield from of_group(part, entries)
    if fault:
        yield Finding("group", f"how long a group has waited is unknown, because the proxy's audit can't be read: {fault}",
                      left_out="how long a group has waited")


def of_group(part: Part, entries: list[Entry]) -> Iterator[Finding]:
    in_reset = [str(node.node) for node in part.nodes if node.mode != "ready"]
    if in_reset:
        yield Finding("group", f"a reset is in progress at these nodes: {', '.join(in_reset)}")
    nodes = {node.node for node in part.nodes}
    since = last_time(entry for entry in entries if is_reset_of(entry, nodes))
    for node in part.nodes:
        if node.epoch > node.confirmed:
            yield Finding("group", f"node {node.node} has not confirmed epoch {node.epoch}{f' since the reset at {since}' if since else ''}: "
                                   f"{others(part)}{sign_of_life(node, entries)}")


def others(part: Part) -> str:
    """Describes the members that wait for one member."""
    return f"all {len(part.nodes)} nodes of its group wait for this" if len(part.nodes) > 1 else "no other node is connected with it"


def sign_of_life(node: Node, entries: list[Entry]) -> str:
    """Describes the last sign of life of the member in the audit: a confirm or a reset of its node."""
    mine = [entry for entry in entries if request_of(entry).get("op") in ("confirm", "reset") and request_of(entry).get("node") == node.node]
    if not mine:
        return "; the audit has no sign of life from this node" if entries else ""
    last = mine[-1]
    return f"; the node's last sign of life was a {request_of(last)['op']} at {last['time']} by {name_of(last.get('who')) or 'somebody'}"


def name_of(who: object) -> object:
    """Returns the principal of an entry; in an audit of an earlier version, the certificate or the user."""
    return who.get("certificate") or who.get("user") if isinstance(who, dict) else who


def is_reset_of(entry: Entry, nodes: set[int]) -> bool:
    """Returns whether an entry is a reset of one of these nodes that was carried out."""
    request, answer = request_of(entry), entry.get("answer")
    return request.get("op") == "reset" and request.get("node") in nodes and isinstance(answer, dict) and answer.get("kind") in (
        "started", "finished", "carried out")


def last_time(entries: Iterable[Entry]) -> str:
    return max((str(entry["time"]) for entry in entries), default="")


def request_of(entry: Entry) -> Entry:
    line = entry.get("line")
    return line if isinstance(line, dict) else {}


def read_entries(path: str) -> tuple[list[Entry], str]:
    """Returns the entries of an audit file, and the reason if there are none."""
    entries: list[Entry] = []
    try:
        with open(path, encoding="utf-8", errors="replace") as lines:
            for line in lines:
                try:
                    entry = json.loads(line)
                except ValueError:
                    continue
                if isinstance(entry, dict) and "time" in entry:
                    entries.append(entry)
    except OSError as fault:
        return [], f"{path}: {fault.strerror}"
    return entries, ""
