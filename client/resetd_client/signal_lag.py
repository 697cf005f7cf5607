"""Finds whether a server's file of signals has a line for each signal. If the server can't write the file, for example because
the disk is full, it continues and prints no more lines until its next start; services then learn of a reset only by looking."""

from __future__ import annotations

import json
import os
import re
from dataclasses import asdict, dataclass

from . import files
from .view import View

LISTENING = re.compile(rb"listening [0-9.]+:\d+\n")  # possibly after a torn line
SIGNAL = re.compile(rb"signal (\d+) (\d+)\n")


@dataclass(frozen=True)
class Mark:
    """A place in a file of signals, at the end of a line, and each node's epoch when the file ended there."""

    path: str
    inode: int
    place: int
    epochs: dict[int, int]


class Signals:
    """The lines that a file of signals lacks. A kill may lose a line, and so may moving or truncating the file. But after a
    mark, within one run of the server and one file, no line is lost this way: each epoch that has risen since the mark must
    have its line there. If all have it, the mark is moved to the end, so that little is read each time."""

    def __init__(self, path: str, kept: str) -> None:
        self._path, self._kept = path, kept

    def lacking(self, view: View) -> list[tuple[int, int]]:
        """Returns the signals that the view implies and the file lacks, each as a node and its epoch. Raises OSError."""
        shown = {node.node: node.epoch for node in view.nodes}
        mark = self._read()
        with open(self._path, "rb") as file:
            found = os.fstat(file.fileno())
            is_same = mark is not None and (mark.path, mark.inode) == (self._path, found.st_ino) and mark.place <= found.st_size
            file.seek(mark.place if mark and is_same else 0)
            begun, text = file.tell(), file.read()
        now = Mark(self._path, found.st_ino, begun + text.rfind(b"\n") + 1, shown)
        lacking = []
        if mark and is_same and not LISTENING.search(text):
            there = {(int(line[1]), int(line[2])) for line in SIGNAL.finditer(text)}
            lacking = [(node, epoch) for node, epoch in shown.items()
                       if epoch > mark.epochs.get(node, 0) and (node, epoch) not in there]
        if not lacking and now != mark:
            files.keep(self._kept, json.dumps(asdict(now)))
        return lacking

    def _read(self) -> Mark | None:
        try:
            kept = json.loads(files.read(self._kept) or "{}")
            epochs = {int(node): int(epoch) for node, epoch in kept["epochs"].items()}
            return Mark(str(kept["path"]), int(kept["inode"]), int(kept["place"]), epochs)
        except (ValueError, KeyError, TypeError, AttributeError):
            return None
