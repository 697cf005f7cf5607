"""Tries a user's access to a store's file in a process of that user, with the calls that a server makes at its start, in the
same order."""

from __future__ import annotations

import json
import os
import pwd
import select
import signal
import time
from collections.abc import Callable
from dataclasses import dataclass

SYNC_SECONDS = 5.0  # a start waits for a sync for any time


@dataclass(frozen=True)
class Account:
    """A user of this machine, by number; if the user has no name, the name is the number."""

    name: str
    uid: int
    gid: int
    groups: tuple[int, ...]

    @property
    def is_known(self) -> bool:
        return self.name != str(self.uid)


def account_of(uid: int) -> Account:
    """Returns the account with this number and its groups. A number without a name belongs only to the group of the same
    number."""
    try:
        found = pwd.getpwuid(uid)
    except KeyError:
        return Account(str(uid), uid, uid, (uid,))
    return Account(found.pw_name, uid, found.pw_gid, tuple(os.getgrouplist(found.pw_name, found.pw_gid)))


def account_named(name: str) -> Account:
    """Returns the account with this name or number. Raises KeyError."""
    return account_of(int(name)) if name.isdigit() else account_of(pwd.getpwnam(name).pw_uid)


def owner_of(folder: str) -> Account:
    """Returns the owner of a folder: the server's user, if the unit or the package made the folder. Raises OSError."""
    return account_of(os.stat(folder).st_uid)


@dataclass(frozen=True)
class Trial:
    """The result of a trial: the call that failed, and why (empty if none did); and the number of seconds that the syncs took
    (None if not all calls returned in time)."""

    failed: str = ""
    synced: float | None = 0.0


def may_try_as(account: Account) -> bool:
    """Returns whether this process can act as the user: it already runs as that user, or as root."""
    return os.geteuid() in (0, account.uid)


def tried_as(account: Account, path: str, seconds: float = SYNC_SECONDS) -> Trial:
    """Opens a file for reading and writing, opens its folder, and syncs both, as this user. Takes no lock and writes nothing.
    The calls run in a separate process, so a disk that hangs does not block this one."""
    reader, writer = os.pipe()
    child = os.fork()
    if child == 0:
        try:
            let_go(writer)
            attempt(account, path, lambda result: os.write(writer, json.dumps(result).encode() + b"\n"))
        finally:
            os._exit(0)
    os.close(writer)
    try:
        reports = lines_of(reader, seconds)
    finally:
        os.close(reader)
    os.kill(child, signal.SIGKILL)  # a process that waits for a disk ends once the disk responds
    os.waitpid(child, 0 if reports else os.WNOHANG)
    last = reports[-1] if reports else ["begun"]
    return Trial(last[1]) if last[0] == "failed" else Trial("", float(last[1]) if last[0] == "synced" else None)


def let_go(writer: int) -> None:
    """Closes every descriptor of this process except one, so that a process that waits for a disk does not keep another
    process's pipe open."""
    os.closerange(0, writer)
    os.closerange(writer + 1, os.sysconf("SC_OPEN_MAX"))


def become(account: Account) -> None:
    """Changes this process's rights to those of the user."""
    if os.geteuid() == 0:
        os.setgroups(account.groups)
        os.setresgid(account.gid, account.gid, account.gid)
        os.setresuid(account.uid, account.uid, account.uid)


def attempt(account: Account, path: str, report: Callable[[list[object]], object]) -> None:
    """Makes the calls, and reports each result."""
    call = "can't be impersonated"
    try:
        become(account)
        call = "can't open the file for reading and writing"
        file = os.open(path, os.O_RDWR | os.O_NONBLOCK | os.O_CLOEXEC)
        call = "can't open the file's folder"
        folder = os.open(os.path.dirname(path) or ".", os.O_RDONLY | os.O_CLOEXEC)
        call, began = "can't sync the file", time.monotonic()
        os.fdatasync(file)
        call = "can't sync the file's folder"
        os.fsync(folder)
        report(["synced", time.monotonic() - began])
    except OSError as fault:
        report(["failed", f"{call}: {fault.strerror}"])


def lines_of(reader: int, seconds: float) -> list[list[str]]:
    """Returns the reports of the process until it ends, for at most this many seconds."""
    until, text = time.monotonic() + seconds, b""
    while select.select([reader], [], [], max(until - time.monotonic(), 0))[0]:
        if not (part := os.read(reader, 4096)):
            break
        text += part
    return [json.loads(line) for line in text.split(b"\n")[:-1]]
