"""Finds the cause of a fault of `resetd`, such as Device or NoMagic, by inspecting a store's file from outside. It locks and
writes nothing."""

from __future__ import annotations

import errno
import grp
import os
import resource
import stat
from collections.abc import Iterator

from .access import SYNC_SECONDS, Account, may_try_as, owner_of, tried_as
from .finding import Finding, user_name
from .processes import commanded, file_limit, lock_holders, output_pipe, program_of
from .store_file import HALVES, HEADER, NoStore, Restless, Store, read_store

KINDS = {stat.S_IFREG: "file", stat.S_IFDIR: "folder", stat.S_IFIFO: "FIFO", stat.S_IFSOCK: "socket",
         stat.S_IFBLK: "block device", stat.S_IFCHR: "character device"}


def of_file(path: str, account: Account | None = None) -> Iterator[Finding]:
    """Yields the findings about a store's file, from its folder to its bytes, for a user, by default the owner of the folder."""
    folder = os.path.dirname(os.path.abspath(os.path.realpath(path)))
    yield from of_folder(folder)
    try:
        found = os.stat(path)
    except OSError as fault:
        yield of_absence(path, fault)
        return
    kind = KINDS.get(stat.S_IFMT(found.st_mode), "file of an unknown kind")
    is_file = kind == "file"
    yield Finding("file", f"a {kind} of {found.st_size:,} bytes, {owned(found)}" + ("" if is_file else "; a store must be a regular file"),
                  "" if is_file else "Device")
    if not is_file:
        return
    yield from of_access(path, account or owner_of(folder))
    yield from of_lock(found)
    try:
        store = read_store(path)
    except NoStore as fault:
        yield Finding("store", f"the file is not a readable store: {fault}" + (": the file is empty" if not found.st_size else ""), fault.name)
    except (OSError, Restless) as fault:
        yield Finding("store", f"the file can't be read: {fault}", "Device")
    else:
        yield from of_store(store)
    yield from of_space(path, found)


def of_absence(path: str, fault: OSError) -> Finding:
    """Describes a file that does not exist, or that this user can't see."""
    if fault.errno != errno.ENOENT:
        return Finding("file", f"{fault.strerror}", "Device")
    if os.path.islink(path):
        return Finding("file", f"the path is a symbolic link to a missing file: {os.path.realpath(path)}", "Device")
    return Finding("file", f"{fault.strerror}; a start of the server would create an empty file", "NoMagic")


def of_folder(folder: str) -> Iterator[Finding]:
    try:
        yield Finding("folder", f"{folder}, {owned(os.stat(folder))}")
    except OSError as fault:
        yield Finding("folder", f"{folder}: {fault.strerror}", "Device")


def owned(found: os.stat_result) -> str:
    """Formats the mode and the owners like `ls`."""
    try:
        group = grp.getgrgid(found.st_gid).gr_name
    except KeyError:
        group = str(found.st_gid)
    return f"{stat.filemode(found.st_mode)} {user_name(found.st_uid)}:{group}"


def of_access(path: str, account: Account) -> Iterator[Finding]:
    """Reports whether the server's user may use the file and its folder, and whether the disk completes a sync."""
    if not may_try_as(account):
        yield Finding("access", f"only root can check whether the user {account.name} may open the store: use sudo",
                      left_out=f"whether the user {account.name} may open the store")
        return
    if not account.is_known:
        yield Finding("access", f"the folder belongs to user number {account.uid}, but no user of this machine has that number: the folder may "
                                "be from another machine. Name the server's user with --user")
    trial = tried_as(account, os.path.realpath(path))
    if trial.failed:
        yield Finding("access", f"the user {account.name} {trial.failed}. If the server runs as {account.name}, run chown {account.name} "
                                f"{path}, and check the modes in the lines above", "Device")
    elif trial.synced is None:
        yield Finding("access", f"opening and syncing the store and its folder takes longer than {SYNC_SECONDS:g} s",
                      later="the disk is slow or hangs")
    else:
        yield Finding("access", f"the user {account.name} may open the store and its folder; syncing both took {trial.synced:.3f} s")


def of_lock(found: os.stat_result) -> Iterator[Finding]:
    """Reports which process has locked the file."""
    holders = lock_holders(found)
    for process in holders:
        yield Finding("lock", f"process {process}{commanded(process)} holds the lock, so a second start is refused", "Device")
        yield from of_program(process)
        yield from of_output(process)
    if not holders:
        yield Finding("lock", "no process on this machine holds the lock")


def of_program(process: int) -> Iterator[Finding]:
    """Reports which program a process runs. This distinguishes one build of the server from another."""
    if program := program_of(process):
        yield Finding("program", f"process {process} runs {program.path}, SHA-256 {program.checksum}" + (
            "" if program.is_there else "; the file at that path has changed: the process runs the old program until it is restarted"))


def of_output(process: int) -> Iterator[Finding]:
    """Reports that a server's output is a pipe: the server ends only after all its lines have been read."""
    pipe = output_pipe(process)
    if pipe is not None:
        read = ", ".join(f"process {each}{commanded(each)}" for each in pipe.readers) or "no process"
        yield Finding("output", f"process {process} writes to a pipe that {read} reads" +
                      ("; the pipe is full: end the process that reads it" if pipe.is_full else ""),
                      later="nobody reads the server's output" if pipe.is_full else "")


def of_limit(who: str, limit: int | None, needed: int) -> Iterator[Finding]:
    if limit is not None and limit < needed:
        yield Finding("limit", f"{who} may write files of at most {limit:,} bytes: at a longer file, SIGXFSZ ends it without a message",
                      later="a signal ends the server")


def of_store(store: Store) -> Iterator[Finding]:
    half = store.half
    after = store.count - store.world.count
    yield Finding("store", f"version {half.version}, {store.count:,} steps: {store.world.count:,} in the snapshot, {after:,} in "
                           f"{len(store.batches):,} batches after it")
    yield Finding("store", f"half {half.index} is selected; {half.used:,} of its {half.size:,} bytes are used")
    nodes = [node for node, mode in store.world.modes.items() if mode != "ready"]
    if nodes:
        yield Finding("store", f"in the snapshot these nodes are in a reset: {', '.join(map(str, nodes))}")
    yield Finding("store", "the file is a readable store; resetd check reports whether its steps are accepted and its world is legal")


def of_space(path: str, found: os.stat_result) -> Iterator[Finding]:
    """Reports whether the file can grow to its full length."""
    space, full = os.statvfs(path), HEADER + 2 * half_size(path)
    free, lacks = space.f_bavail * space.f_frsize, max(full - found.st_blocks * 512, 0)
    yield Finding("space", f"{free:,} bytes are free, and the store may need up to {lacks:,} more",
                  later="Stopped" if free < lacks else "")
    if space.f_flag & os.ST_RDONLY:
        yield Finding("space", "the file system is mounted read-only", "Device")
    limit = resource.getrlimit(resource.RLIMIT_FSIZE)[0]
    yield from of_limit("this shell", None if limit == resource.RLIM_INFINITY else limit, full)
    for process in lock_holders(found):
        yield from of_limit(f"process {process}", file_limit(process), full)


def half_size(path: str) -> int:
    """Returns the size of a half, or the least possible size if the file does not have it."""
    try:
        with open(path, "rb") as file:
            size = int.from_bytes(file.read(HEADER)[9:], "big")
    except OSError:
        size = 0
    return size if size in HALVES else HALVES[0]
