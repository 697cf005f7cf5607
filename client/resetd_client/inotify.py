"""Notifications of changed files in folders (inotify of Linux), through the C library."""

from __future__ import annotations

import ctypes
import os
import struct
import weakref

CREATED, MODIFIED, MOVED_FROM, MOVED_TO, DELETED = 0x100, 0x2, 0x40, 0x80, 0x200
DELETED_SELF, MOVED_SELF, ONLY_FOLDERS = 0x400, 0x800, 0x1000000
MASK = CREATED | MODIFIED | MOVED_FROM | MOVED_TO | DELETED | DELETED_SELF | MOVED_SELF | ONLY_FOLDERS
IGNORED, OVERFLOWED = 0x8000, 0x4000
NOT_KNOWN = DELETED_SELF | MOVED_SELF | IGNORED | OVERFLOWED  # events that do not name the file that has changed
EVENTS_BYTES = 65_536
EVENT = struct.Struct("iIII")  # the watch, the event, and the length of the name that follows


class Inotify:
    """A descriptor that becomes readable when something has changed in one of the folders. Its owner closes it."""

    def __init__(self) -> None:
        """Raises OSError if the system has no inotify, or too many are in use."""
        try:
            library = ctypes.CDLL(None, use_errno=True)
            self._add = library.inotify_add_watch
            self._descriptor = library.inotify_init1(os.O_NONBLOCK | os.O_CLOEXEC)
        except AttributeError as fault:
            raise OSError(f"no inotify here: {fault}") from fault
        if self._descriptor < 0:
            raise OSError(ctypes.get_errno(), "inotify_init1")
        weakref.finalize(self, os.close, self._descriptor)

    def fileno(self) -> int:
        return int(self._descriptor)

    def watch(self, folder: str) -> int | None:
        """Watches a folder from now on, even if it has replaced another one. Returns the number of the watch, or None if the
        folder does not exist."""
        number = int(self._add(self._descriptor, os.fsencode(folder), ctypes.c_uint32(MASK)))
        return number if number >= 0 else None

    def take(self) -> set[int] | None:
        """Returns the watches whose folders have changed since the last call, or None if that is unknown."""
        changed, is_known = set[int](), True
        try:
            while events := os.read(self._descriptor, EVENTS_BYTES):
                place = 0
                while place < len(events):
                    watch, what, _, length = EVENT.unpack_from(events, place)
                    place += EVENT.size + length
                    changed.add(watch)
                    is_known = is_known and not what & NOT_KNOWN
        except BlockingIOError:
            pass
        return changed if is_known else None
