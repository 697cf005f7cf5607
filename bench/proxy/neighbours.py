"""One client's looks beside others that do what they should not."""

from __future__ import annotations

import contextlib
import fcntl
import multiprocessing
import select
import socket
import struct
import termios
import time
from collections.abc import Iterable, Sequence

from coordinator import Server
from running import Proxy, Tools, audit_arguments, has_audit
from waves import CHORDS, NODES

SHOW = b'{"op":"show"}\n'
GARBAGE = b"\xff" * 400 + b"\n"
HALF_HEADER = b"\r\n\r\n\0\r\nQUIT\n" + struct.pack("!BBH", 0x21, 0x11, 40)  # of a PROXY header; the rest does not come
NAMES = ("look", "silent", "deaf", "flood", "garbage")


def connected(path: str) -> socket.socket:
    while True:
        made = socket.socket(socket.AF_UNIX)
        try:
            made.connect(path)
            return made
        except BlockingIOError:
            made.close()
            time.sleep(0.001)


def ask_on(path: str, lines: bytes) -> None:
    """Sends these lines again and again, and reads the answers."""
    count = lines.count(b"\n")
    with connected(path) as connection:
        while True:
            connection.sendall(lines)
            left = count
            while left:
                left -= connection.recv(1 << 16).count(b"\n")


def deaf(path: str) -> socket.socket:
    """A client that asks, and does not read."""
    made = connected(path)
    made.setblocking(False)
    with contextlib.suppress(BlockingIOError):
        made.send(SHOW * 500)
    return made


def await_full(connections: Sequence[socket.socket]) -> None:
    """Waits until these get no more answers."""
    before, now = -1, 0
    while before < now:
        before = now
        time.sleep(0.5)
        now = sum(struct.unpack("i", fcntl.ioctl(each, termios.FIONREAD, bytes(4)))[0] for each in connections)


def ended(connections: Iterable[socket.socket]) -> int:
    poller = select.poll()
    for connection in connections:
        poller.register(connection, 0)
    return sum(bool(event & select.POLLHUP) for _, event in poller.poll(0))


def look(path: str, count: int) -> list[float]:
    """Milliseconds of looks one after the other, in ascending order."""
    took = list[float]()
    with connected(path) as connection, connection.makefile("rb") as lines:
        for _ in range(count):
            began = time.monotonic()
            connection.sendall(SHOW)
            lines.readline()
            took.append(1000 * (time.monotonic() - began))
    return sorted(took)


def beside(tools: Tools, count: int, many: int) -> tuple[float, float, int, float | None]:
    """Of looks beside 60 unfinished handshakes, 200 silent clients, `many` that don't read, one that floods and one that sends garbage:
    the median and the 99th percentile in milliseconds, how many were ended, and by how many KB the audit grew in a second."""
    with Server(tools.server, tools.library, NODES, CHORDS) as server:
        arguments = ["--certificates", f"{server.folder}/certificates.socket", "--stuck", "600", "--patience", "600", "--server-silent", "60"]
        arguments += audit_arguments(tools, server.folder)
        with Proxy(tools, server.address, server.folder, *NAMES, arguments=arguments) as proxy:
            handshakes = [connected(f"{server.folder}/certificates.socket") for _ in range(60)]
            for each in handshakes:
                each.sendall(HALF_HEADER)
            silent = [connected(proxy.path("silent")) for _ in range(200)]
            unread = [deaf(proxy.path("deaf")) for _ in range(many)]
            await_full(unread)
            fork = multiprocessing.get_context("fork")
            busy = [fork.Process(target=ask_on, args=(proxy.path(name), lines), daemon=True)
                    for name, lines in (("flood", SHOW * 64), ("garbage", GARBAGE * 64))]
            for process in busy:
                process.start()
            size, began = proxy.audited(), time.monotonic()
            took = look(proxy.path("look"), count)
            growth = (proxy.audited() - size) / 1000 / (time.monotonic() - began)
            out = ended([*silent, *unread])
            for process in busy:
                process.kill()
                process.join()
            return took[count // 2], took[int(count * 0.99)], out, growth if has_audit(tools.proxy) else None
