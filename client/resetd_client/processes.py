"""The processes of this machine, as far as this user may see them: their open files, their locks, and the addresses where they
listen."""

from __future__ import annotations

import ctypes
import enum
import hashlib
import os
import select
import socket
import stat
import time
from collections.abc import Iterator
from dataclasses import dataclass

LISTENS = "0A"  # the state in /proc/net/tcp
MOST_CHARACTERS = 400  # characters of a command
SAMPLE_SECONDS = 0.5  # how long a thread has to be in one call, or in none, to count
NETWORK = 0x40000000  # CLONE_NEWNET, for setns(2)


def lock_holders(found: os.stat_result) -> list[int]:
    """Returns the processes of this machine that hold a lock on a file. On some file systems a lock has another device number
    than the file; then the process's open files are compared."""
    device = f"{os.major(found.st_dev):02x}:{os.minor(found.st_dev):02x}"
    try:
        with open("/proc/locks", encoding="utf-8") as lines:
            rows = [line.split() for line in lines]
    except OSError:
        return []
    holders = set()
    for row in rows:
        if len(row) > 5 and row[1] != "->" and row[5].endswith(f":{found.st_ino}"):
            process = int(row[4])
            if row[5] == f"{device}:{found.st_ino}" or has_open(process, found):
                holders.add(process)
    return sorted(holders)


def has_open(process: int, found: os.stat_result) -> bool:
    for name in opened(process):
        try:
            if os.path.samestat(os.stat(f"/proc/{process}/fd/{name}"), found):
                return True
        except OSError:
            pass
    return False


def commanded(process: int) -> str:
    """Returns the command line of a process as one line, if it can be read. A very long one is cut."""
    try:
        with open(f"/proc/{process}/cmdline", "rb") as file:
            command = " ".join(file.read().replace(b"\0", b" ").decode("utf-8", "replace").split())
    except OSError:
        return ""
    return f" ({command[:MOST_CHARACTERS]}{' ..' if len(command) > MOST_CHARACTERS else ''})" if command else ""


def file_limit(process: int) -> int | None:
    """Returns a process's limit on the size of a file, or None if it has no limit."""
    try:
        with open(f"/proc/{process}/limits", encoding="utf-8") as lines:
            row = next(line for line in lines if line.startswith("Max file size")).split()
    except (OSError, StopIteration):
        return None
    return int(row[3]) if row[3].isdigit() else None


def listening(host: str, port: int) -> set[int]:
    """Returns the processes that listen at an address, as far as this user may see them."""
    wanted = {f"{int.from_bytes(socket.inet_aton(each), 'little'):08X}:{port:04X}" for each in (host, "0.0.0.0")}
    try:
        with open("/proc/net/tcp", encoding="utf-8") as lines:
            rows = [line.split() for line in lines][1:]
    except OSError:
        return set()
    sockets = {f"socket:[{row[9]}]" for row in rows if row[1] in wanted and row[3] == LISTENS}
    return {process for process in processes() if sockets & set(links_of(process))} if sockets else set()


def has_other_network(process: int) -> bool:
    """Returns whether a process is in another network namespace than this one, as far as this user may see that."""
    try:
        return not os.path.samestat(os.stat(f"/proc/{process}/ns/net"), os.stat("/proc/self/ns/net"))
    except OSError:
        return False


def join_network(process: int) -> None:
    """Moves this thread permanently into the network namespace of another process. Raises OSError; needs root."""
    with open(f"/proc/{process}/ns/net", "rb") as file:
        if ctypes.CDLL(None, use_errno=True).setns(file.fileno(), NETWORK) != 0:
            raise OSError(ctypes.get_errno(), os.strerror(ctypes.get_errno()))


def processes() -> list[int]:
    return [int(name) for name in os.listdir("/proc") if name.isdigit()]


def opened(process: int) -> list[str]:
    """Returns the numbers of a process's open descriptors, as far as this user may see them."""
    try:
        return os.listdir(f"/proc/{process}/fd")
    except OSError:
        return []


def links_of(process: int) -> Iterator[str]:
    """Returns the names of a process's open files."""
    for name in opened(process):
        try:
            yield os.readlink(f"/proc/{process}/fd/{name}")
        except OSError:
            pass


@dataclass(frozen=True)
class Pipe:
    """A pipe into which a process writes: the processes that read it, and whether it is full."""

    readers: list[int]
    is_full: bool


def output_pipe(process: int) -> Pipe | None:
    """Returns the pipe or FIFO that is a process's standard output, or None if it is something else."""
    path = f"/proc/{process}/fd/1"
    try:
        name = os.readlink(path)
        if not stat.S_ISFIFO(os.stat(path).st_mode):
            return None
        writer = os.open(path, os.O_WRONLY | os.O_NONBLOCK)
    except OSError:
        return None
    try:
        poll = select.poll()
        poll.register(writer, select.POLLOUT)
        is_full = not poll.poll(0)
    finally:
        os.close(writer)
    return Pipe([each for each in processes() if each != process and reads(each, name)], is_full)


def reads(process: int, name: str) -> bool:
    """Returns whether a process has opened the file with this name for reading (or for reading and writing)."""
    for number in opened(process):
        try:
            if os.readlink(f"/proc/{process}/fd/{number}") == name and flags_of(process, number) & os.O_ACCMODE != os.O_WRONLY:
                return True
        except OSError:
            pass
    return False


def flags_of(process: int, number: str) -> int:
    """Returns the flags with which a process has opened a descriptor."""
    with open(f"/proc/{process}/fdinfo/{number}", encoding="utf-8") as lines:
        return next(int(line.split()[1], 8) for line in lines if line.startswith("flags:"))


class Condition(enum.Enum):
    """The reason why a process makes no progress."""

    STOPPED = "stopped"
    IN_A_CALL = "in a call"
    SPINNING = "spinning"


def condition_of(process: int, seconds: float = SAMPLE_SECONDS) -> Condition | None:
    """Returns whether a process is stopped by a signal, or one of its threads has for this many seconds been in one
    uninterruptible call, such as a sync, or has never slept. None if none of these is so, or it can't be seen."""
    first = threads_of(process)
    if any(state in "Tt" for state, _ in first.values()):
        return Condition.STOPPED
    time.sleep(seconds)
    second = threads_of(process)
    same = {first[thread][0] for thread in first if second.get(thread) == first[thread]}
    return Condition.IN_A_CALL if "D" in same else Condition.SPINNING if "R" in same else None


def threads_of(process: int) -> dict[str, tuple[str, int]]:
    """Returns the threads of a process, each with the letter of its state and the number of times that it went to sleep."""
    found = {}
    try:
        for thread in os.listdir(f"/proc/{process}/task"):
            with open(f"/proc/{process}/task/{thread}/status", encoding="utf-8") as lines:
                rows = dict(line.split(":", 1) for line in lines if ":" in line)
            found[thread] = (rows["State"].split()[0], int(rows["voluntary_ctxt_switches"]))
    except (OSError, KeyError, ValueError):
        pass
    return found


@dataclass(frozen=True)
class Program:
    """The file that a process runs, its SHA-256, and whether its path still names that file."""

    path: str
    checksum: str
    is_there: bool


def program_of(process: int) -> Program | None:
    """Returns the program of a process, or None if this user may not see it."""
    link = f"/proc/{process}/exe"
    try:
        path = os.readlink(link).removesuffix(" (deleted)")
        running = checksum_of(link)
    except OSError:
        return None
    try:
        return Program(path, running, checksum_of(path) == running)
    except OSError:
        return Program(path, running, False)


def checksum_of(path: str) -> str:
    with open(path, "rb") as file:
        return hashlib.file_digest(file, "sha256").hexdigest()
