"""The limits of a coordinator (docs/PROTOCOL.md), with which numbers out of range are rejected before anything is sent."""

from __future__ import annotations

from collections.abc import Mapping

from .errors import BadWords

CLIENTS = range(1, 17)
NODES = range(1, 65)
GROUPS = range(1, 17)
WORDS = range(1 << 64)
MOST_LINKS_AT_NODE, MOST_LINKS = 16, 128

RANGES: Mapping[str, range] = {
    "client": CLIENTS, "number": WORDS, "node": NODES, "group": GROUPS, "a": NODES, "b": NODES, "epoch": WORDS}


def check_number(name: str, value: object) -> None:
    """Raises BadWords if a request's member with this name can't have this value. Accepts any value for other names."""
    limits = RANGES.get(name)
    if limits is None:
        return
    if not isinstance(value, int) or isinstance(value, bool) or value not in limits:
        raise BadWords(f"{name} must be {said(limits)}, not {shown(value)}")


def check_order(order: Mapping[str, object]) -> None:
    """Raises BadWords for the first number in an order that is out of its range."""
    for name, value in order.items():
        check_number(name, value)


def said(limits: range) -> str:
    """Formats a range for a message."""
    return "a whole number below 2^64" if limits == WORDS else f"a whole number from {limits[0]} to {limits[-1]}"


def shown(value: object) -> str:
    """Formats a value for a message, shortened if it is long."""
    text = repr(value) if not isinstance(value, int) or value.bit_length() < 1_000 else "a number of 1,000 bits or more"
    return text if len(text) <= 40 else f"{text[:40]}.."
