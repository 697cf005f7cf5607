"""The starts of a member: their state on the disk, and the action that is due for a view by the rule (rule.py)."""

from __future__ import annotations

import os
from dataclasses import replace

from . import files
from .fence import Fence, count_of
from .history import History
from .party import TAG_DIGITS, digest_of, is_alone, nodes_of, tag_of
from .rule import Due, Judged, Kept, judge, shown_to
from .since import boot_name
from .start_file import Row, read_rows, text_of
from .view import Node, View

MOST_FORESEEN = 4  # parties of a node: a start may have talked with an earlier one, as far as is known


class Shelf:
    """Stores the starts of one or more nodes, in two files. One (start_file.py) has the epoch that each node has begun, and the
    party with which its start first talked. The other, `.history`, only grows, and has all parties that any of the starts
    may have talked with. A node without a row has begun nothing.

    The history is on the disk before a start talks with a party. The start file is written without a sync: a power cut may
    lose it, and then the member asks for a reset. Both files are synced when they are read, because the previous process may
    have been killed before it synced them.
    """

    def __init__(self, path: str) -> None:
        """Raises Unreadable if a file can't be read."""
        self._path, self._boot = path, boot_name()
        self._keeps_starts = True  # whether the work outlives the process
        self.history = History(os.path.splitext(path)[0] + ".history")
        self._rows = read_rows(path, files.read(path), self._boot)
        self._most = self._greatest_begun()  # epochs that the file on the disk may name: it is the one that was read, or one written since
        self._talking: set[str] = set()  # digests of parties with which starts will talk after the next `keep`
        self._is_written = self._is_on_disk = not any(row.is_synced_form for row in self._rows.values())
        self._take_over_epochs()
        self._sync_what_was_read()

    def _take_over_epochs(self) -> None:
        """Reads files of the oldest form, which have the greatest epoch that was ever begun, and its party. That start does not
        continue."""
        for row in self._rows.values():
            if row.floor is not None and row.kept.party and not is_alone(row.kept.party):
                self.history.add(digest_of(row.kept.party))

    def _sync_what_was_read(self) -> None:
        self.history.sync()
        self.history.keep()
        if self._is_written:
            files.sync(self._path)
        else:
            self._write(is_synced=True)

    def get(self, node: int) -> Kept:
        """Returns the epoch and the party of a node's start."""
        row = self._row(node)
        return Kept() if row.floor is not None else row.kept

    def count(self, node: int) -> int | None:
        """Returns the number of settled steps in the view that fixed the party of a node's start, or None if it is unknown."""
        return self._row(node).count

    def told(self, node: int) -> str:
        """Returns a gateway's last instruction to the members of a node, `EPOCH NUMBER` and a line feed; empty if there was
        none."""
        return self._row(node).instruction or ""

    def floor(self, node: int) -> int | None:
        """Returns the greatest epoch that a node has ever begun, if the file has the oldest form."""
        return self._row(node).floor

    def put(self, node: int, kept: Kept, *, told: str | None = None) -> None:
        """Replaces a node's start. The next `keep` or `write` writes it to the file."""
        before = self._row(node)
        row = Row(kept, before.count if kept == before.kept else None, before.foreseen, before.instruction if told is None else told)
        if row != before:
            self._set(node, row)

    def fix_party(self, node: int, kept: Kept, digest: str | None, count: int) -> None:
        """Records that a start talks for the first time, in a view of `count` settled steps. The next `keep` writes the party's
        digest to the disk (unless the start is alone), and then the start file."""
        if digest is not None:
            self.history.add(digest)
            self._talking.add(digest)
        self._set(node, replace(self._row(node), kept=kept, count=count))

    def foresee(self, node: int, digest: str) -> None:
        """Adds a party to the history before any start has talked with it. Call `write` and then `keep` after it."""
        row = self._row(node)
        self.history.add(digest)
        self._set(node, replace(row, foreseen=(*row.foreseen, digest)[-MOST_FORESEEN:]))

    def is_barred(self, digest: str) -> bool:
        """Returns whether a start may have talked with this party: it is in the history, and not only foreseen."""
        return digest in self.history and not any(digest in row.foreseen for row in self._rows.values())

    def keep(self, is_synced: bool = False) -> None:
        """Syncs the history, then writes the start file, and syncs it if `is_synced`. After an error, call it again."""
        self.history.keep()
        talking, self._talking = self._talking, set()
        for node, row in list(self._rows.items()):
            if not talking.isdisjoint(row.foreseen):
                self._set(node, replace(row, foreseen=tuple(digest for digest in row.foreseen if digest not in talking)))
        self.write(is_synced)

    def write(self, is_synced: bool = False) -> None:
        """Writes only the start file. It names the foreseen parties before the history has them, so that the next process can
        distinguish them from parties with which a start has talked."""
        if self._keeps_starts and not (self._is_on_disk if is_synced else self._is_written):
            self._write(is_synced)

    def _write(self, is_synced: bool) -> None:
        """Writes the file. If the disk must say only that nothing is begun, empties it, which needs one sync."""
        if is_synced and all(row.is_empty for row in self._rows.values()):
            files.empty(self._path)
        else:
            (files.keep if is_synced else files.overwrite)(self._path, text_of(self._rows, self._boot))
        self._most = max(-1 if is_synced else self._most, self._greatest_begun())
        self._is_written, self._is_on_disk = True, is_synced

    def _greatest_begun(self) -> int:
        return max([row.kept.begun for row in self._rows.values() if row.kept.begun is not None], default=-1)

    def keep_no_starts(self) -> None:
        """Stops writing the start file. Used for work that does not outlive the process: its next process has begun nothing."""
        if self._rows:
            self._rows = {}
            files.empty(self._path)
        self._keeps_starts = False

    def may_say_begun(self, epoch: int) -> bool:
        """Returns whether the start file on the disk may name this epoch, for an earlier start. If it may, sync "nothing begun"
        before the epoch is begun again."""
        return epoch <= self._most

    def _row(self, node: int) -> Row:
        return self._rows.get(node, Row())

    def _set(self, node: int, row: Row) -> None:
        self._rows[node] = row
        self._is_written = self._is_on_disk = False


class Barred:
    """The parties with which a start must not talk, in the form that the rule expects."""

    def __init__(self, shelf: Shelf) -> None:
        self._shelf = shelf

    def __contains__(self, digest: object) -> bool:
        return isinstance(digest, str) and self._shelf.is_barred(digest)


class Starts:
    """The starts of one node's member, stored together with its work. After `due`, `note_begin` and `note_begun` the caller
    calls `shelf.keep`, before it acts on them."""

    def __init__(self, shelf: Shelf, node: int, begun: int | None) -> None:
        """`begun` is the epoch that is stored with the present work, None if there is no work."""
        self._shelf, self._node = shelf, node
        self.work = begun
        self._floor = shelf.floor(node)

    @property
    def begun(self) -> int | None:
        """The epoch of the present work; None if there is no work, or if it does not belong to the stored start."""
        return self.work if self.work == self._kept.begun else None

    def due(self, view: View, row: Node) -> Due:
        """Returns the action that is due for a view with the row of the member's node, and records the state to be stored in
        the shelf."""
        if self._floor is not None and row.epoch <= self._floor:
            return self._take_over(view, row)
        self._floor = None
        judged = self._judged(view, row)
        if judged.due is Due.TALK and self._kept.party is None:
            self._shelf.fix_party(self._node, judged.kept, judged.digest, view.settled)
        return judged.due

    def foresee(self, view: View) -> None:
        """Adds the party with which the begun start will talk, if nothing changes, to the history in advance, so that the start
        need not wait for the disk later. No start has talked with that party yet, so it is still permitted. This process
        knows that, and so does the next one, unless the power was cut: then it asks for a reset when this party is shown."""
        row, part = view.node(self._node), view.part(self._node)
        if row is None or row.epoch != self.begun or self._kept.party is not None or not part.is_quiet or is_alone(part.party):
            return
        digest = digest_of(part.party)
        if digest not in self._shelf.history:
            self._shelf.foresee(self._node, digest)

    def tag(self, view: View, word: str = "") -> str:
        """Returns the tag of a start that is due to talk, empty for one that was alone when it first talked."""
        party = self._kept.party
        return tag_of(party, view.party(self._node), word) if party is not None else ""

    def fence(self, word: str = "", generation: int = 0) -> Fence | None:
        """Returns the fence of a start that has talked, or None if an earlier version of the library fixed its party: the next
        reset brings a fence. A start that was alone shares its run with nobody, and a later one may have the same party; so
        its tag includes the count. `generation` must be greater after each restore of the coordinator's store."""
        party, settled = self._kept.party, self._shelf.count(self._node)
        if party is None or settled is None:
            return None
        count = count_of(generation, settled)
        digest = digest_of(party, f"{word}@{count}" if is_alone(party) else word)
        return Fence(count, digest[:TAG_DIGITS], nodes_of(party))

    def why(self, row: Node) -> str:
        """Describes why a reset is due."""
        if row.epoch > row.confirmed:
            return f"epoch {row.epoch} has the same connected nodes and links as an earlier start"
        if row.epoch == self.begun:
            return f"the connected nodes or links have changed since epoch {row.epoch} began"
        work = "this member has begun no work" if self.begun is None else f"this member has begun epoch {self.begun}"
        return f"epoch {row.epoch} is confirmed, but {work}"

    def note_begin(self, told: str | None = None) -> None:
        """Records that a start begins. Call this, and `keep`, before any work of the previous start is dropped. The previous
        start will not talk again, whatever happens to its work."""
        self._shelf.put(self._node, Kept(), told=told)

    def note_begun(self, epoch: int) -> None:
        """Records that the start of an epoch is complete and on the disk."""
        self.work = epoch
        self._shelf.put(self._node, Kept(epoch))

    @property
    def _kept(self) -> Kept:
        return self._shelf.get(self._node)

    def _judged(self, view: View, row: Node) -> Judged:
        return judge(Kept(self.begun, self._kept.party), Barred(self._shelf), shown_to(view, row))

    def _take_over(self, view: View, row: Node) -> Due:
        """Handles a file of an earlier version that has this epoch or a greater one: asks for a reset, once."""
        if any(node.mode != "ready" for node in view.connected(row.node)):
            return Due.WAIT
        self._floor = None
        return Due.RESET
