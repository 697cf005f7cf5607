"""What the processes of a soak wait for: written down when the soak fails, for whoever looks for the cause."""

import contextlib
import glob
import os
import signal
import subprocess
import sys
import time
from collections.abc import Iterator, Sequence
from typing import NamedTuple

from .door import ROOT, read_tail
from .proxy import Proxy
from .server import Server

STACK_SECONDS = 10.0  # within which a process has written its stacks
LAST_ORDERS = 12  # lines of the audit, of one node
MOST_BYTES = 8_000  # of a process's last lines


def state_of(process: int) -> str:
    """The state of each thread of a process, and the call of the system that it waits in."""
    threads = []
    for folder in sorted(glob.glob(f"/proc/{process}/task/*")):
        with contextlib.suppress(OSError):
            with open(f"{folder}/stat", encoding="ascii") as stat, open(f"{folder}/wchan", encoding="ascii") as wchan:
                threads.append(f"{stat.read().rpartition(')')[2].split()[0]} {wchan.read()}")
    return f"process {process}: {', '.join(threads) or 'it has ended'}"


def abort(process: subprocess.Popen[bytes]) -> None:
    """Aborts a process, which may be paused, so that it writes its stacks."""
    process.send_signal(signal.SIGABRT)
    process.send_signal(signal.SIGCONT)
    with contextlib.suppress(subprocess.TimeoutExpired):
        process.wait(STACK_SECONDS)


def answer_of(*arguments: str) -> str:
    """What `resetctl` prints."""
    done = subprocess.run([sys.executable, f"{ROOT}/client/resetctl", "--patience", "5", *arguments], stdin=subprocess.DEVNULL,
                          capture_output=True, encoding="utf-8", check=False)
    return f"{done.stdout}{done.stderr}"


def orders_of(audit: str, node: int) -> str:
    """The last orders of a node, by the proxy's audit."""
    return "\n".join(answer_of("log", audit, "--node", str(node)).splitlines()[-LAST_ORDERS:])


def locks_of(path: str) -> str:
    """The locks of a file, as the system lists them."""
    inode = f":{os.stat(path).st_ino} "
    with open("/proc/locks", encoding="ascii") as lines:
        return "".join(line for line in lines if inode in line)


class Suspect(NamedTuple):
    """A process that may be stuck, the file with its output, and the node whose member it is, if any."""

    name: str
    process: subprocess.Popen[bytes]
    lines: str
    node: int | None = None


def report(server: Server, proxy: Proxy, suspects: Sequence[Suspect], files: Sequence[str]) -> Iterator[str]:
    """The parts of a report: the views at both addresses, the findings of `resetctl why`, the locks of some files, and of each suspect
    its state, its last orders and its last lines, which have its stacks."""
    yield f"{time.strftime('%H:%M:%S')}, load {os.getloadavg()}"
    for address in (server.address, proxy.address):
        yield f"\nshow at {address}\n{answer_of('--address', address, 'show')}"
    yield f"\nwhy\n{answer_of('why', server.store, server.address, '--audit', proxy.audit)}"
    for path in files:
        yield f"\nlocks of {path}\n{locks_of(path)}"
    for suspect in suspects:
        yield f"\n{suspect.name}, {state_of(suspect.process.pid)}\n{orders_of(proxy.audit, suspect.node) if suspect.node else ''}"
        abort(suspect.process)
        yield read_tail(suspect.lines, MOST_BYTES)


def write(path: str, parts: Iterator[str]) -> None:
    """Writes a report, as far as it goes."""
    with open(path, "w", encoding="utf-8") as file:
        try:
            for part in parts:
                print(part, file=file, flush=True)
        except OSError as fault:
            print(repr(fault), file=file)
