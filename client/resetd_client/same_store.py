"""Finds whether a coordinator's store is the store in a file. The server reads its file only at its start, and continues to
answer when somebody truncates, overwrites, replaces or removes the file; its later answers are then lost when it ends."""

from __future__ import annotations

from dataclasses import dataclass

from .store_file import NoStore, Restless, read_store
from .view import View


class NotCompared(Exception):
    """It can't be found whether the file is the store: this user may not read it, or every attempt met a checkpoint."""


@dataclass(frozen=True)
class Reading:
    """The number of steps in a file at one moment, or the reason why it is no store."""

    count: int | None
    why_not: str = ""


def reading(path: str) -> Reading:
    """Returns the number of steps in a file now. Raises NotCompared."""
    try:
        return Reading(read_store(path).count)
    except NoStore as fault:
        return Reading(None, f"the file is not a readable store ({fault})")
    except (PermissionError, Restless) as fault:
        raise NotCompared(f"{path}: {fault.strerror if isinstance(fault, OSError) else fault}") from fault
    except OSError as fault:
        return Reading(None, f"the file can't be read ({fault.strerror})")


def difference(before: Reading, view: View, after: Reading) -> str:
    """Returns the reason why a file is not the store of a coordinator that answered with this view between the two readings;
    empty if it may be that store. By the second reading the file must have the view's settled steps, and it never has a step
    that was not accepted. A flight in progress may be in the file before it is settled."""
    if after.count is None:
        return after.why_not
    if after.count < view.settled:
        return f"the file has {after.count:,} steps, but the coordinator has {view.settled:,} steps on the disk"
    if before.count is not None and before.count > view.accepted:
        return f"the file had {before.count:,} steps, but the coordinator had accepted only {view.accepted:,}"
    return ""
