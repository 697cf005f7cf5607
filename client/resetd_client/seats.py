"""A member behind a gateway, from either side: its folder, and the one file with the instructions to all members.

    FOLDER/told/members    the gateway's, put in place as a whole; a line for each member:
        NAME EPOCH NUMBER             begin this epoch, if NUMBER is above that of `begun`. It is greater each time, since an
                                      epoch can come again. Talk with nobody
        NAME EPOCH NUMBER TAG BOOT    the same; and the group is through: whoever has begun NUMBER may talk, with this tag, in the
                                      boot that /proc/sys/kernel/random/boot_id names. TAG is `-` for a node that is
                                      connected with nobody
    FOLDER/NAME/begun      the member's: `EPOCH NUMBER` of what it has begun, on the disk with its work, which may stand below this
                           line; or `lost EPOCH NUMBER`, if the work that it began for this is gone
    FOLDER/NAME/refused    the member's: the tag of a message that it refused. The gateway takes the file away

Only `begun` is synced: the gateway stores its instructions in its own file before it publishes them, in one write for all
members. So after a power cut `told/members` may be old, torn or gone, while the work may already be that of the next begin. A
line that is not above `begun` asks for nothing; and a tag is valid only in the boot in which it was written, and beside a `begun`
of its number. The gateway then compares `begun` with its own file, and repeats every instruction that was not carried out.
"""

from __future__ import annotations

import os
import re
from contextlib import suppress

from . import files
from .changes import Changes, State, state_of
from .errors import BadWords
from .orders import warn
from .party import is_same_run
from .since import boot_name

BEGUN = re.compile(r"(?:lost )?[0-9]+ ([0-9]+)\n", re.ASCII)
INSTRUCTION = re.compile(r"^(\S+) ([0-9]+) ([0-9]+)(?: (\S+) (\S+))?\n", re.ASCII | re.MULTILINE)
NAME = re.compile(r"[^\s/]+", re.ASCII)
BOARD = "told"  # the folder of the gateway's file; no member has this name
WAIT_SECONDS = 1.0


def board_in(folder: str) -> str:
    """Returns the path of the gateway's file in its folder."""
    return os.path.join(folder, BOARD, "members")


def line_of(text: str | None) -> str:
    """Returns the first line of a text, with its line feed, or an empty text if there is none."""
    line, end, _ = (text or "").partition("\n")
    return line + end


def number_of(text: str | None) -> int:
    """Returns the number in the first line of `begun`, or of the last instruction, or 0 if it is missing or can't be read."""
    found = BEGUN.fullmatch(line_of(text))
    return int(found.group(1)) if found else 0


class Cached:
    """The text of a file, which is read again only after the file has changed."""

    def __init__(self, path: str) -> None:
        self._path, self._text = path, ""
        self._state: State = None

    def read(self) -> str:
        """The text, empty if there is no file."""
        state = state_of(self._path)  # before the text, so that a file that is replaced meanwhile is read again
        if state != self._state:
            self._state, self._text = state, files.read(self._path) or ""
        return self._text


class Board:
    """The file in which a gateway instructs its members."""

    def __init__(self, folder: str) -> None:
        self._path = board_in(folder)
        os.makedirs(os.path.dirname(self._path), exist_ok=True)
        self._text = files.read(self._path)
        self.numbers = {name: int(number) for name, _, number, _, _ in INSTRUCTION.findall(self._text or "")}  # the last instructions

    def publish(self, text: str) -> None:
        """Publishes the instructions to all members at once, unless they are the same as last time."""
        if text != self._text:
            os.makedirs(os.path.dirname(self._path), exist_ok=True)
            files.put(self._path, text)
            self._text = text


class Seat:
    """A member's folder, from the gateway's side."""

    def __init__(self, folder: str) -> None:
        """Raises BadWords for a name that can't be written in a line."""
        self.folder, self.name = folder, os.path.basename(folder)
        if self.name == BOARD or not NAME.fullmatch(self.name):
            raise BadWords(f"{self.name!r} can't be a member's name: a name must have no blanks, and must not be {BOARD!r}")
        os.makedirs(folder, exist_ok=True)
        self._begun = Cached(os.path.join(folder, "begun"))
        self._wanted = number_of(files.read(os.path.join(folder, "wanted")))
        self.is_earlier = self._take_away_earlier_files()

    @property
    def number(self) -> int:
        """The greatest number in the member's folder."""
        return max(self._wanted, number_of(self._begun.read()))

    def written_by_member(self) -> list[str]:
        return [os.path.join(self.folder, name) for name in ("begun", "refused")]

    def has_begun(self, instruction: str) -> bool:
        """Returns whether the member has begun as instructed."""
        return line_of(self._begun.read()) == instruction

    def has_lost(self, instruction: str) -> bool:
        """Returns whether the member reports that the work of this instruction is lost."""
        return line_of(self._begun.read()) == f"lost {instruction}"

    def take_refused(self) -> str | None:
        """Returns the tag that the member refused last, if it has refused one since the last call."""
        path = os.path.join(self.folder, "refused")
        with suppress(FileNotFoundError):
            os.rename(path, f"{path}.taken")
        text = files.read(f"{path}.taken")
        if text is None:
            return None
        os.remove(f"{path}.taken")
        return text.strip()

    def _take_away_earlier_files(self) -> bool:
        """Removes the files in which a gateway of an earlier version instructed each member, beginning with `run`, so that the
        member may no longer talk. Returns whether there were any."""
        paths = [path for name in ("run", "wanted") if os.path.exists(path := os.path.join(self.folder, name))]
        for path in paths:
            os.remove(path)
        return bool(paths)


class Served:
    """The member's side of a gateway: its folder, and the gateway's instructions."""

    def __init__(self, folder: str) -> None:
        """`folder` is the member's own folder: NAME, inside the gateway's FOLDER."""
        os.makedirs(folder, exist_ok=True)
        self._folder, self._name = os.path.abspath(folder), os.path.basename(os.path.abspath(folder))
        self._instruction = ""
        self._own_line = re.compile(rf"^{re.escape(self._name)} ([0-9]+) ([0-9]+)(?: (\S+) (\S+))?\n", re.ASCII | re.MULTILINE)
        path = board_in(os.path.dirname(self._folder))
        os.makedirs(os.path.dirname(path), exist_ok=True)
        self._board, self._begun = Cached(path), Cached(os.path.join(self._folder, "begun"))
        self._changes = Changes([path])
        self._changes.take()
        if os.path.exists(os.path.join(self._folder, "wanted")):
            warn(f"{folder}: the gateway is of an earlier version: start the gateway again with this version, "
                 f"which writes its instructions to {path}")

    def wanted(self) -> int | None:
        """The epoch to begin, or None if the member has begun, or lost, the last one."""
        epoch, number, _, _ = self._line()
        if number <= number_of(self._begun.read()):
            return None
        self._instruction = f"{epoch} {number}\n"
        return epoch

    def has_begun(self, work: str = "", is_synced: bool = True) -> None:
        """Reports that the member has begun the epoch that `wanted` returned last, and that its work is on the disk. `work` is
        written together with this report, in one file: so neither can exist without the other, and a begin costs two syncs,
        instead of the four that a separate file, synced before this call, would take. If the work is in memory, nothing has
        to be synced: the member's next process calls `has_lost` when it starts."""
        (files.keep if is_synced else files.put)(os.path.join(self._folder, "begun"), self._instruction + work)

    def work(self) -> str | None:
        """The work given to `has_begun`, or None if nothing is begun or its work was lost."""
        line, _, work = self._begun.read().partition("\n")
        return work if number_of(f"{line}\n") and not line.startswith("lost") else None

    def has_lost(self) -> None:
        """Reports that the work of the begun epoch is lost. The gateway then instructs the member to begin again, after a
        reset."""
        begun = self._begun.read()
        if number_of(begun) and not begun.startswith("lost"):
            files.keep(os.path.join(self._folder, "begun"), f"lost {line_of(begun)}")

    def tag(self) -> str | None:
        """Returns the tag of the run that the group is in, or None while a member is not through, and for a member that is
        connected with nobody. The tag is for sending; `takes` decides whether to accept a message."""
        _, number, tag, boot = self._line()
        begun = self._begun.read()
        if number != number_of(begun) or begun.startswith("lost") or boot != boot_name():
            return None
        return tag if tag != "-" else None

    def takes(self, tag: str) -> bool:
        """Returns whether a message with this tag belongs to the run that the member is in. If it does not, the gateway is
        informed, and looks."""
        own = self.tag()
        if own is not None and is_same_run(own, tag):
            return True
        if own is not None:
            files.put(os.path.join(self._folder, "refused"), f"{tag}\n")
        return False

    def wait(self, seconds: float = WAIT_SECONDS) -> None:
        """Waits until the gateway has published something since the last wait, at most this many seconds."""
        self._changes.wait(seconds)

    def _line(self) -> tuple[int, int, str, str]:
        """Returns the epoch, the number, the tag and the boot in the gateway's line; 0 or empty if it has no line."""
        found = self._own_line.search(self._board.read())
        if found is None:
            return 0, 0, "", ""
        epoch, number, tag, boot = found.groups("")
        return int(epoch), int(number), tag, boot
