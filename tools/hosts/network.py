"""The hosts of the trial: namespaces, each with its own network, mounts, name and processes, joined by one switch.

All of them are inside the namespaces that tools/takeover began, so nothing is bound or mounted outside, and the end of the
first process in there ends everything.
"""

import contextlib
import ctypes
import fcntl
import os
import socket
import struct
import subprocess
import sys
import threading
import time
from collections.abc import Callable, Iterator
from typing import IO

LIBC = ctypes.CDLL(None, use_errno=True)
NEW_NETWORK = 0x40000000
STEP_TIMEOUT = 240  # seconds after which something hangs, on the busiest machine too
GET_FLAGS, SET_FLAGS, UP = 0x8913, 0x8914, 1
SWITCH = "switch"

# The first process of a host. It starts with its own folders in place of the machine's, and an empty /run.
BOOT = r"""
set -e
hostname "$1"
mount --bind "$2/glusterd" /var/lib/glusterd
mount --bind "$2/log" /var/log/glusterfs
mount --bind "$2/srv" /srv
mount --bind "$2/../names" /etc/hosts
mount -t tmpfs -o mode=755 run /run
ip link set lo up
echo up
read linked
ip address add "$3/24" dev eth0
ip link set eth0 up
echo linked
exec "$4" -c 'import signal
signal.signal(signal.SIGCHLD, signal.SIG_IGN)
while True:
    signal.pause()'
"""


class Failed(Exception):
    """A step in the trial's own setup failed; this implies nothing about the coordinator."""


def run(command: list[str], is_checked: bool = True) -> tuple[int, str]:
    """Runs a command to its end. Returns its status and its output."""
    try:
        done = subprocess.run(command, stdin=subprocess.DEVNULL, stdout=subprocess.PIPE, stderr=subprocess.STDOUT,
                              encoding="utf-8", errors="replace", timeout=STEP_TIMEOUT, check=False)
    except subprocess.TimeoutExpired as late:
        raise Failed(f"{' '.join(command)}: not within {STEP_TIMEOUT} s") from late
    if is_checked and done.returncode != 0:
        raise Failed(f"{' '.join(command)}: status {done.returncode}: {done.stdout.strip()}")
    return done.returncode, done.stdout


def make_switch(folder: str) -> None:
    """Creates the switch that joins the hosts, and the file with their names."""
    with open(f"{folder}/names", "w", encoding="utf-8") as names:
        names.write("127.0.0.1 localhost\n" + "".join(f"10.77.0.{n} host{n}\n" for n in (1, 2, 3)))
    run(["ip", "link", "set", "lo", "up"])
    run(["ip", "link", "add", SWITCH, "type", "bridge"])
    run(["ip", "link", "set", SWITCH, "up"])


class Host:
    """One machine, on or off. Its folder is its disk and outlives it; its processes and mounts don't."""

    process: subprocess.Popen[str]

    def __init__(self, number: int, folder: str) -> None:
        self.number, self.name, self.address = number, f"host{number}", f"10.77.0.{number}"
        self.folder, self.port = f"{folder}/host{number}", f"port{number}"
        self.first: int | None = None  # the number of its first process, while it is on
        for part in ("glusterd", "log", "srv/brick", "srv/resetd"):
            os.makedirs(f"{self.folder}/{part}")

    def boot(self) -> None:
        self.boot_by(BOOT)

    def boot_by(self, script: str, *more: str, group: str | None = None) -> None:
        """Starts the host, in a separate control group if one is named: systemd must be the only one in its group."""
        command = ["sh", "-c", 'echo $$ > "$0/cgroup.procs"; exec "$@"', group] if group else []
        command += ["unshare", "--net", "--mount", "--pid", "--uts", "--ipc", "--cgroup", "--fork", "--kill-child",
                    "--mount-proc", "sh", "-c", script, "boot", self.name, self.folder, self.address,
                    os.path.realpath(sys.executable), *more]
        with open(f"{self.folder}/boot", "ab") as faults:
            self.process = subprocess.Popen(command, stdin=subprocess.PIPE, stdout=subprocess.PIPE, stderr=faults,
                                            encoding="utf-8")
        self.expect("up")
        with open(f"/proc/{self.process.pid}/task/{self.process.pid}/children", encoding="utf-8") as children:
            self.first = int(children.read().split()[0])
        run(["ip", "link", "add", self.port, "type", "veth", "peer", "name", "eth0", "netns", str(self.first)])
        run(["ip", "link", "set", self.port, "master", SWITCH, "up"])
        assert self.process.stdin
        self.process.stdin.write("linked\n")
        self.process.stdin.flush()
        self.expect("linked")

    def expect(self, word: str) -> None:
        assert self.process.stdout
        line = self.process.stdout.readline().strip()
        if line != word:
            raise Failed(f"{self.name} did not start: {line or self.process.wait()}")

    @property
    def is_on(self) -> bool:
        return self.first is not None

    def kill(self) -> None:
        """Kills the first process by signal 9, and so all of them. No process can send anything more, because the link is cut
        first."""
        assert self.first and self.process.stdin and self.process.stdout
        self.cut()
        os.kill(self.first, 9)
        self.process.wait()
        self.process.stdin.close()
        self.process.stdout.close()
        self.first = None
        run(["ip", "link", "delete", self.port], is_checked=False)

    def cut(self) -> None:
        set_link(self.port, False)

    def link(self) -> None:
        set_link(self.port, True)

    def inside(self, *command: str) -> list[str]:
        """Returns the arguments that run a command on this host."""
        return ["nsenter", f"--target={self.first}", "--mount", "--net", "--pid", "--uts", "--ipc", "--cgroup",
                "--wd=/", *command]

    def run(self, *command: str, is_checked: bool = True) -> tuple[int, str]:
        return run(self.inside(*command), is_checked)

    def number_outside(self, number: str) -> int:
        """Returns the number that a process of this host has outside it."""
        for entry in filter(str.isdigit, os.listdir("/proc")):
            with contextlib.suppress(OSError):  # it has ended meanwhile
                if namespace_of(entry) == namespace_of(self.first) and inner_number(entry) == number:
                    return int(entry)
        raise Failed(f"{self.name} has no process {number}")

    @contextlib.contextmanager
    def network(self) -> Iterator[None]:
        """Gives the calling thread this host's network within the body: its connections are the host's."""
        with open(f"/proc/{self.first}/ns/net", "rb") as there, \
                open(f"/proc/self/task/{threading.get_native_id()}/ns/net", "rb") as back:
            enter(there)
            try:
                yield
            finally:
                enter(back)


def namespace_of(process: object) -> str:
    """Returns the name of the namespace that gives a process its innermost number."""
    return os.readlink(f"/proc/{process}/ns/pid")


def inner_number(process: str) -> str:
    """Returns the innermost number of a process."""
    with open(f"/proc/{process}/status", encoding="utf-8") as file:
        return next(line.split()[-1] for line in file if line.startswith("NSpid:"))


def set_link(name: str, is_up: bool) -> None:
    """Sets a link up or down at once, without a command that would first have to start."""
    with socket.socket(socket.AF_INET, socket.SOCK_DGRAM) as any_socket:
        asked = fcntl.ioctl(any_socket, GET_FLAGS, struct.pack("16sh22x", name.encode(), 0))
        flags = struct.unpack("16sh22x", asked)[1] & ~UP | (UP if is_up else 0)
        fcntl.ioctl(any_socket, SET_FLAGS, struct.pack("16sh22x", name.encode(), flags))


def enter(namespace: IO[bytes]) -> None:
    if LIBC.setns(namespace.fileno(), NEW_NETWORK) != 0:
        raise Failed(f"no way into a network namespace: {os.strerror(ctypes.get_errno())}")


def wait_for(what: str, is_so: Callable[[], object], pause: float = 0.05) -> float:
    """Waits until `is_so` returns a true value. Returns the seconds that it took."""
    begun = time.monotonic()
    while not is_so():
        if time.monotonic() - begun > STEP_TIMEOUT:
            raise Failed(f"{what}: not within {STEP_TIMEOUT} s")
        time.sleep(pause)
    return time.monotonic() - begun
