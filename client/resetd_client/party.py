"""The party of a start: its lines, and the digests that name it.

A party has a line `NODE EPOCH` for each connected node, and a line `A B INCARNATION` for each link between them. Its text
consists of these lines, sorted by their bytes, each with a line feed.
"""

from __future__ import annotations

import hashlib
from functools import lru_cache

Party = frozenset[str]

TAG_DIGITS = 32  # of the 64 digits of a SHA-256
BETWEEN = "-"  # the two digests of a tag


@lru_cache(maxsize=16)  # because all members of a gateway ask for the same digests
def digest_of(party: Party, word: str = "") -> str:
    """Returns the SHA-256 of the party's text as 64 hexadecimal digits. `word`, unless it is empty, becomes the first line of
    the text."""
    lines = [word] * bool(word) + sorted(party)
    return hashlib.sha256("".join(f"{line}\n" for line in lines).encode()).hexdigest()


def is_alone(party: Party) -> bool:
    """Returns whether the party is one node that is connected with nobody."""
    return len(party) == 1


def nodes_of(party: Party) -> frozenset[int]:
    """Returns the nodes of the party."""
    return frozenset(int(fields[0]) for line in party if len(fields := line.split()) == 2)


def tag_of(first: Party, shown: Party, word: str = "") -> str:
    """Returns the tag of a start that first talked with the party `first` and now sees the party `shown`: 32 digits of the
    digest of each, joined by `-`. Empty for a start that was alone."""
    if is_alone(first):
        return ""
    return digest_of(first, word)[:TAG_DIGITS] + BETWEEN + digest_of(shown, word)[:TAG_DIGITS]


def is_same_run(tag: str, other: str) -> bool:
    """Returns whether a message with the tag `other` belongs to the run of its receiver, which has the tag `tag`. A receiver
    without a tag accepts no message."""
    return tag != "" and _run(tag) == _run(other)


def are_parted(tag: str, other: str) -> bool:
    """Returns whether two starts will refuse each other forever: they talk in two runs, although both last saw the same party."""
    return "" not in (tag, other) and _run(tag) != _run(other) and _shown(tag) == _shown(other)


def _run(tag: str) -> str:
    return tag.partition(BETWEEN)[0]


def _shown(tag: str) -> str:
    return tag.partition(BETWEEN)[2]
