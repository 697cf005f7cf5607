"""Serves a disk by the NBD protocol (https://github.com/NetworkBlockDevice/nbd/blob/master/doc/proto.md), at a Unix socket.

It announces that it accepts flushes, and offers neither FUA nor discards: so its client has to flush. Requests that wait
together are carried out flushes first, because a flush need not cover a write that was not answered when the flush was sent.
"""

import contextlib
import socket
import struct
import threading

from .disk import Disk

GREETING = b"NBDMAGIC" + b"IHAVEOPT" + struct.pack(">H", 1 | 2)  # fixed newstyle, no zeroes
FLAGS = 1 | 4  # has flags, takes flushes
OPTION_REPLY, REPLY = 0x3E889045565A9, 0x67446698
EXPORT_NAME, LIST, ABORT, INFO, GO = 1, 3, 2, 6, 7
ACK, OF_INFO, UNSUPPORTED = 1, 3, 0x80000001
READ, WRITE, DISCONNECT, FLUSH = 0, 1, 2, 3
REQUEST = struct.Struct(">IHH8sQI")
Request = tuple[int, bytes, int, int, bytes]


class Ended(Exception):
    """The other side has ended the connection."""


def receive(client: socket.socket, size: int) -> bytes:
    """Receives this many bytes."""
    received = b""
    while len(received) < size:
        more = client.recv(size - len(received))
        if not more:
            raise Ended
        received += more
    return received


def agree(client: socket.socket, size: int) -> None:
    """Handles the first part of a connection, which describes the disk."""
    client.sendall(GREETING)
    receive(client, 4)
    while True:
        _, option, length = struct.unpack(">8sII", receive(client, 16))
        receive(client, length)
        if option == EXPORT_NAME:
            client.sendall(struct.pack(">QH", size, FLAGS))
            return
        if option in (INFO, GO):
            client.sendall(option_reply(option, OF_INFO, struct.pack(">HQH", 0, size, FLAGS)) + option_reply(option, ACK))
            if option == GO:
                return
        elif option == ABORT:
            client.sendall(option_reply(option, ACK))
            raise Ended
        else:
            client.sendall(option_reply(option, UNSUPPORTED))


def option_reply(option: int, kind: int, data: bytes = b"") -> bytes:
    return struct.pack(">QIII", OPTION_REPLY, option, kind, len(data)) + data


def take_requests(buffer: bytearray) -> list[Request]:
    """Removes the complete requests from a buffer, and returns them: kind, handle, position, size and bytes."""
    taken = []
    while len(buffer) >= REQUEST.size:
        _, _, kind, handle, at, size = REQUEST.unpack_from(buffer)
        end = REQUEST.size + (size if kind == WRITE else 0)
        if len(buffer) < end:
            break
        taken.append((kind, handle, at, size, bytes(buffer[REQUEST.size:end])))
        del buffer[:end]
    return taken


def carry_out(disk: Disk, request: Request) -> bytes:
    """Carries out a request, and returns the answer."""
    kind, handle, at, size, data = request
    if kind == WRITE:
        disk.write(at, data)
    elif kind == FLUSH:
        disk.flush()
    elif kind == DISCONNECT:
        raise Ended
    return struct.pack(">II8s", REPLY, 0, handle) + (disk.now[at:at + size] if kind == READ else b"")


def serve_client(disk: Disk, client: socket.socket) -> None:
    agree(client, disk.size)
    buffer = bytearray()
    while True:
        more = client.recv(1 << 20)
        if not more:
            raise Ended
        buffer += more
        for request in sorted(take_requests(buffer), key=lambda it: it[0] != FLUSH):
            client.sendall(carry_out(disk, request))


def serve(disk: Disk, path: str) -> None:
    """Serves a disk at a socket, one client after another, as long as this process runs."""
    listener = socket.socket(socket.AF_UNIX)
    listener.bind(path)
    listener.listen(4)

    def loop() -> None:
        while True:
            client, _ = listener.accept()
            with client, contextlib.suppress(Ended, OSError):
                serve_client(disk, client)

    threading.Thread(target=loop, daemon=True).start()
