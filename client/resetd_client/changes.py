"""Waits for changes of files that other programs create, change, replace and remove."""

from __future__ import annotations

import math
import os
import select
import time
from collections.abc import Iterable

from .inotify import Inotify

POLL_SECONDS = 0.01  # between two checks of the files, if the system does not report changes

State = tuple[int, int, int] | None  # inode, size and time of the last change; None if there is no file


class Changes:
    """A set of files, which need not exist yet. On a local file system the system reports changes (inotify), and only the files
    in the changed folder are checked. Without inotify, or if a folder is missing, all files are checked a hundred times a
    second."""

    def __init__(self, paths: Iterable[str]) -> None:
        self._states: dict[str, State] = {path: None for path in paths}
        self._inotify: Inotify | None
        try:
            self._inotify = Inotify()
        except OSError:
            self._inotify = None
        self._watched: dict[int, list[str]] = {}  # for each watch, the files in its folder
        self._is_reported = False  # whether the system reports each change from now on

    def descriptors(self) -> list[int] | None:
        """Returns the descriptors to wait for after the last `take`, or None if `take` has to be called every POLL_SECONDS."""
        return [self._inotify.fileno()] if self._inotify and self._is_reported else None

    def take(self) -> list[str]:
        """Returns the files that have changed since the last call; the first call returns those that exist."""
        changed = self._inotify.take() if self._inotify and self._is_reported else None
        if changed is None:
            self._watch_all()
            return self._changed(self._states)
        paths = dict.fromkeys(path for watch in changed for path in self._watched.get(watch, []))
        if any(map(os.path.islink, paths)):
            self._watch_all()  # it may lead to another file now
        return self._changed(paths)

    def _watch_all(self) -> None:
        """Watches each folder that contains one of the files, or into which a link leads, before the files are checked."""
        if self._inotify is None:
            return
        self._watched, self._is_reported = {}, True
        for folder, paths in self._folders().items():
            watch = self._inotify.watch(folder)
            if watch is None:
                self._is_reported = False
            else:
                self._watched.setdefault(watch, []).extend(paths)
        if self._is_reported:
            self._inotify.take()

    def _changed(self, paths: Iterable[str]) -> list[str]:
        changed = []
        for path in paths:
            now = state_of(path)
            if now != self._states[path]:
                self._states[path] = now
                changed.append(path)
        return changed

    def wait(self, seconds: float) -> list[str]:
        """Returns the files that have changed since the last call. Waits at most this many seconds for the first change."""
        until = time.monotonic() + seconds
        while not (changed := self.take()):
            left = until - time.monotonic()
            if left <= 0:
                break
            wait_for([self.descriptors()], left)
        return changed

    def _folders(self) -> dict[str, list[str]]:
        """Returns the folders of the files, including the targets of symbolic links, with the files of each."""
        folders: dict[str, list[str]] = {}
        for path in self._states:
            folders.setdefault(os.path.dirname(os.path.abspath(path)), []).append(path)
            if os.path.islink(path):
                folders.setdefault(os.path.dirname(os.path.realpath(path)), []).append(path)
        return folders


def state_of(path: str) -> State:
    try:
        now = os.stat(path)
    except OSError:
        return None
    return now.st_ino, now.st_size, now.st_mtime_ns


def wait_for(sources: Iterable[list[int] | None], seconds: float) -> bool:
    """Waits until one of the descriptors can be read, at most this many seconds. If a source is None, and so has to be polled,
    waits only for a moment. Returns whether a descriptor can be read."""
    poller, polls = select.poll(), False
    for source in sources:
        polls = polls or source is None
        for descriptor in source or []:
            poller.register(descriptor, select.POLLIN)
    most = min(seconds, POLL_SECONDS) if polls else seconds
    return bool(poller.poll(math.ceil(1000 * max(most, 0.0))))
