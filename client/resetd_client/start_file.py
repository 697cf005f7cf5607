"""The text of a start file: one row per node, for the present start of its member.

A row is one of these, in one line of JSON for all nodes:

    {"begun": E, "party": [..], "count": N}                     epoch E is begun, and its start first talked with this party,
                                                                in a view of N settled steps
    {"begun": null, "party": null, "loaded": E, "foreseen": [..], "boot": B}
                                                                epoch E is begun, and nobody was talked with. It counts in the
                                                                boot B alone: after a power cut the disk may still say so of a
                                                                start that has talked. `foreseen` are digests in the history
                                                                of parties that no start has talked with
    {"begun": null, "party": null}                              nothing is begun

A gateway's rows have `told` too: the last instruction to the node's members. The file may be torn by a power cut, since it is not
always synced. A text without its last line feed is torn; it says that nothing is begun, like an empty one.

Earlier versions wrote `{"begun": E, "party": null}` for a start that has not talked (the file was synced then), and before that
`{"epoch": E, "party": [..]}` with the greatest epoch that was ever begun.
"""

from __future__ import annotations

import json
from dataclasses import dataclass

from .errors import Unreadable
from .party import Party
from .rule import Kept

KNOWN = frozenset({"begun", "party", "count", "loaded", "foreseen", "boot", "told", "epoch"})


@dataclass(frozen=True)
class Row:
    """One node's row. `count` is the number of settled steps in the view that fixed the party, or None if it is unknown.
    `floor` is the greatest epoch that was ever begun, in a file of the oldest form. `is_synced_form` marks the row that an
    earlier version wrote for a start that has not talked yet: replace it, and sync the file, before the start talks."""

    kept: Kept = Kept()
    count: int | None = None
    foreseen: tuple[str, ...] = ()
    instruction: str | None = None
    floor: int | None = None
    is_synced_form: bool = False

    @property
    def is_empty(self) -> bool:
        """Returns whether the row says only that nothing is begun."""
        return self.kept == Kept() and self.instruction is None and self.floor is None


def read_rows(path: str, text: str | None, boot: str) -> dict[int, Row]:
    """Parses the text of a start file, for this boot. Raises Unreadable."""
    if not text or not text.endswith("\n"):
        return {}
    try:
        rows = dict(json.loads(text).items())
    except (ValueError, AttributeError) as fault:
        raise Unreadable(path, ": remove the file; the member then asks for a reset") from fault
    unknown = sorted({name for row in rows.values() if isinstance(row, dict) for name in row} - KNOWN)
    if unknown:
        raise Unreadable(path, f": a later version of the library wrote the file, which has {unknown[0]!r}. Use that version, or remove the file; "
                               "the member then asks for a reset")
    try:
        return {int(node): read_row(row, boot) for node, row in rows.items()}
    except (ValueError, KeyError, TypeError, AttributeError) as fault:
        raise Unreadable(path, ": remove the file; the member then asks for a reset") from fault


def read_row(row: dict[str, object], boot: str) -> Row:
    """Parses one row. Raises ValueError, KeyError and TypeError."""
    party = None if row["party"] is None else frozenset(str(line) for line in _list(row["party"]))
    if "epoch" in row:
        return Row(Kept(None, party), floor=_number(row["epoch"]))
    instruction = None if "told" not in row else str(row["told"])
    if "boot" in row:
        if row["boot"] != boot or not boot:
            return Row(instruction=instruction)
        return Row(Kept(_number(row["loaded"])), foreseen=tuple(map(str, _list(row["foreseen"]))), instruction=instruction)
    begun = None if row["begun"] is None else _number(row["begun"])
    count = _number(row["count"]) if "count" in row else None
    return Row(Kept(begun, party), count, instruction=instruction, is_synced_form=begun is not None and party is None)


def text_of(rows: dict[int, Row], boot: str) -> str:
    """Formats rows as the text of a start file, for this boot."""
    return json.dumps({str(node): members_of(row, boot) for node, row in rows.items()}) + "\n"


def members_of(row: Row, boot: str) -> dict[str, object]:
    kept, instruction = row.kept, {} if row.instruction is None else {"told": row.instruction}
    if row.floor is not None:
        return {"epoch": row.floor, "party": lines_of(kept.party)}
    if kept.begun is not None and kept.party is None:
        return {"begun": None, "party": None, "loaded": kept.begun, "foreseen": list(row.foreseen), "boot": boot, **instruction}
    count = {} if row.count is None else {"count": row.count}
    return {"begun": kept.begun, "party": lines_of(kept.party), **count, **instruction}


def lines_of(party: Party | None) -> list[str] | None:
    return None if party is None else sorted(party)


def _number(value: object) -> int:
    if not isinstance(value, int) or isinstance(value, bool):
        raise TypeError(value)
    return value


def _list(value: object) -> list[object]:
    if not isinstance(value, list):
        raise TypeError(value)
    return value
