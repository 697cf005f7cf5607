"""Files that survive a power cut, and folders that one process at a time holds."""

from __future__ import annotations

import fcntl
import os
import time
from typing import IO

from .errors import ResetdError, Unreadable


SECTOR = 512  # bytes of a file that a disk writes as a whole


class Held(ResetdError):
    """Another process holds the folder. Needs a person, unless that process ends."""


def keep(path: str, text: str) -> None:
    """Replaces the content of a file with a string. When it returns, the string is on disk. If several callers do this at
    the same time, the file has the string of one of them."""
    with open(alone(path + ".new"), "w", encoding="utf-8") as file:
        file.write(text)
        file.flush()
        os.fsync(file.fileno())
        os.replace(path + ".new", path)
    sync_folder(path)


def alone(path: str) -> int:
    """Returns a descriptor of an empty file at this path, to which nobody else writes until it is closed. A killed process may
    have left a file there."""
    while True:
        descriptor = os.open(path, os.O_WRONLY | os.O_CREAT | os.O_CLOEXEC | os.O_NOFOLLOW, 0o666)
        try:
            fcntl.flock(descriptor, fcntl.LOCK_EX)
            if os.path.samestat(os.fstat(descriptor), os.stat(path)):
                os.truncate(descriptor, 0)
                return descriptor
        except FileNotFoundError:
            pass  # whoever held it has renamed it to its final place
        except BaseException:
            os.close(descriptor)
            raise
        os.close(descriptor)


def sync_folder(path: str) -> None:
    """Syncs the folder of a path."""
    folder = os.open(os.path.dirname(os.path.abspath(path)), os.O_RDONLY)
    try:
        os.fsync(folder)
    finally:
        os.close(folder)


def empty(path: str) -> None:
    """Empties a file, if it exists. When it returns, that is on the disk; a power cut before may leave the earlier text or
    nothing. So it needs only one sync, and none of the folder."""
    try:
        descriptor = os.open(path, os.O_WRONLY | os.O_CLOEXEC | os.O_NOFOLLOW)
    except FileNotFoundError:
        return
    try:
        os.ftruncate(descriptor, 0)
        os.fdatasync(descriptor)
    finally:
        os.close(descriptor)


def sync(path: str) -> None:
    """Syncs a file without changing it, and its folder, even if the file is missing. So its present state is durable, although
    the process that wrote, renamed or removed it may not have synced it."""
    try:
        descriptor = os.open(path, os.O_RDONLY | os.O_CLOEXEC)
        try:
            os.fsync(descriptor)
        finally:
            os.close(descriptor)
    except FileNotFoundError:
        pass
    sync_folder(path)


def put(path: str, text: str) -> None:
    """Replaces the whole content of a file by a text, so that readers see the old or the new text, and syncs nothing. After a
    power cut the file has an earlier text, this one, a part of this one, or none."""
    with open(alone(path + ".new"), "w", encoding="utf-8") as file:
        file.write(text)
        file.flush()
        os.replace(path + ".new", path)


def overwrite(path: str, text: str) -> None:
    """Like `put`, for a file that nobody else reads. A short text overwrites the old one in a single call, which a kill can't
    interrupt; it is padded with blanks before its last line feed. A longer text is written by `put`. The call never waits
    for the disk."""
    try:
        descriptor = os.open(path, os.O_WRONLY | os.O_CLOEXEC | os.O_NOFOLLOW)
    except FileNotFoundError:
        put(path, text)
        return
    try:
        size = os.fstat(descriptor).st_size
        line = text.rstrip("\n").encode()
        line += b" " * max(size - 1 - len(line), 0) + b"\n"
        if len(line) > SECTOR:
            put(path, text)
        else:
            os.pwrite(descriptor, line, 0)
    finally:
        os.close(descriptor)


def append(path: str, size: int, text: bytes) -> None:
    """Replaces everything after the first `size` bytes of a file by a text, and creates the file if it is missing. When it
    returns, the text is on the disk."""
    is_new = not os.path.exists(path)
    descriptor = os.open(path, os.O_WRONLY | os.O_CREAT | os.O_CLOEXEC | os.O_NOFOLLOW, 0o666)
    with open(descriptor, "wb", buffering=0) as file:
        file.truncate(size)
        file.seek(size)
        rest = memoryview(text)
        while rest:
            rest = rest[file.write(rest) or 0:]
        os.fsync(descriptor) if is_new else os.fdatasync(descriptor)
    if is_new:
        sync_folder(path)


def read(path: str) -> str | None:
    """Returns the text of a file, or None if there is no file. Raises Unreadable if its bytes are not UTF-8."""
    try:
        with open(path, encoding="utf-8") as file:
            return file.read()
    except FileNotFoundError:
        return None
    except UnicodeDecodeError as fault:
        raise Unreadable(path, ": the file is not text; if the library wrote the file, remove it") from fault


def read_bytes(path: str) -> bytes | None:
    """Returns the bytes of a file, or None if there is no file."""
    try:
        with open(path, "rb") as file:
            return file.read()
    except FileNotFoundError:
        return None


def hold(folder: str, seconds: float = 0.0) -> IO[str]:
    """Creates a folder, and holds it until the result is closed or the process ends. Raises Held, with the process that holds
    the folder, if that process does not release it within this many seconds. The lock is valid on one host: a folder on a
    network file system may be held on two hosts."""
    os.makedirs(folder, exist_ok=True)
    path = os.path.join(folder, "lock")
    lock = open(path, "a", encoding="utf-8")
    until = time.monotonic() + seconds
    while True:
        try:
            fcntl.flock(lock, fcntl.LOCK_EX | fcntl.LOCK_NB)
            break
        except OSError:
            if time.monotonic() >= until:
                lock.close()
                raise Held(f"{holder(path)} works with {folder}") from None
            time.sleep(0.05)
    lock.truncate(0)
    lock.write(f"{os.getpid()}\n")
    lock.flush()
    return lock


def holder(path: str) -> str:
    """Returns the process that a lock file names."""
    number = (read(path) or "").strip()
    return f"process {number}" if number.isdigit() else "another process"
