"""The rule of a member: which action is due for a view, and which state to store before it.

Nothing here reads or writes. The proofs about the rule, and about any number of members that follow it, assume only this:

- a start talks only with those that were connected when it first talked, at the epochs that they had then;
- no two starts of a node ever first talk with the same party.

So the party names the run. If either would be violated, the member asks for a reset, which gives new epochs to all connected
nodes.
"""

from __future__ import annotations

import enum
from collections.abc import Container
from dataclasses import dataclass
from typing import NamedTuple

from .party import Party, digest_of, is_alone
from .view import Node, View


class Due(enum.Enum):
    """The actions that can be due."""

    TALK = enum.auto()  # all connected nodes are through, and its start may talk with them
    WAIT = enum.auto()  # for others, or for the end of a reset
    BEGIN = enum.auto()  # it begins the shown epoch, and confirms it
    RESET = enum.auto()  # it asks for a reset: its start doesn't match the view


@dataclass(frozen=True)
class Kept:
    """The state that a member keeps on the disk, besides the history of its parties: the epoch of its work, None if there is
    none; and the party with which its present start first talked, None if it has not talked."""

    begun: int | None = None
    party: Party | None = None


class Shown(NamedTuple):
    """The part of a view that the member of one node uses: the node's epoch and the last confirmed one; whether all connected
    nodes are through; whether none of them is in a reset; and the party."""

    epoch: int
    confirmed: int
    is_through: bool
    is_quiet: bool
    party: Party


class Judged(NamedTuple):
    """The due action. Before the member acts, it appends `digest`, if it is not empty, to its history, and then stores `kept`.
    To begin, it then loads the common start, and after that stores the epoch as begun."""

    due: Due
    kept: Kept
    digest: str | None = None


def shown_to(view: View, row: Node) -> Shown:
    """Returns the part of a view that the member of this row's node uses."""
    part = view.part(row.node)
    return Shown(row.epoch, row.confirmed, part.is_through, part.is_quiet, part.party)


def judge(kept: Kept, history: Container[str], shown: Shown) -> Judged:
    """Returns the due action. `history` has the digest of each party with which a start of the member has first talked, except
    of starts that were alone."""
    digest = digest_of(shown.party)
    if shown.epoch > shown.confirmed and digest not in history:
        return Judged(Due.BEGIN, Kept())
    if shown.epoch == shown.confirmed == kept.begun:
        if not shown.is_through:
            return Judged(Due.WAIT, kept)
        if kept.party is not None and shown.party <= kept.party:
            return Judged(Due.TALK, kept)
        if kept.party is None and digest not in history:
            return Judged(Due.TALK, Kept(kept.begun, shown.party), None if is_alone(shown.party) else digest)
    return Judged(Due.RESET if shown.is_quiet else Due.WAIT, kept)
