"""The connections to a server on this machine, as the system lists them: the client that is served, and the clients that wait."""

from __future__ import annotations

import socket
from collections.abc import Iterator
from dataclasses import dataclass

from .processes import links_of, processes

TABLES = ("/proc/net/tcp", "/proc/net/tcp6")
OPEN = frozenset({"01", "08"})  # ESTABLISHED, CLOSE_WAIT: this end has not closed it
MAPPED = "0000000000000000FFFF0000"  # an IPv4 address in the table of IPv6


@dataclass(frozen=True)
class Row:
    """A socket: its own address and the other end's, both in the system's notation, its state, user and inode."""

    local: str
    remote: str
    state: str
    user: int
    inode: int


@dataclass(frozen=True)
class Peer:
    """A client with a connection: its address, its user and its processes, as far as this user may see them. The server has
    accepted the connection, or the client is waiting for that. `user` is None if no process in this network namespace has
    the connection."""

    address: str
    user: int | None
    processes: tuple[int, ...]
    is_served: bool


def rows() -> list[Row]:
    """Returns the sockets of this network namespace."""
    found: list[Row] = []
    for table in TABLES:
        try:
            with open(table, encoding="utf-8") as lines:
                found += [row_of(line.split()) for line in list(lines)[1:]]
        except OSError:
            pass
    return found


def row_of(fields: list[str]) -> Row:
    return Row(fields[1].removeprefix(MAPPED), fields[2].removeprefix(MAPPED), fields[3], int(fields[7]), int(fields[9]))


def written(host: str, port: int) -> str:
    """Returns an address in the system's notation."""
    return f"{int.from_bytes(socket.inet_aton(host), 'little'):08X}:{port:04X}"


def read_address(text: str) -> str:
    """Converts an address from the system's notation: an IPv4 address to its usual form; an IPv6 address stays unchanged."""
    host, port = text.split(":")
    return f"{socket.inet_ntoa(int(host, 16).to_bytes(4, 'little'))}:{int(port, 16)}" if len(host) == 8 else text


def peers(host: str, port: int) -> list[Peer]:
    """Returns the clients that have a connection to a server at this address, first the one that is served. A socket that the
    server has not accepted yet has no inode."""
    table, here = rows(), written(host, port)
    clients = {(row.remote, row.local): row for row in table}
    found = []
    for row in table:
        if row.local == here and row.state in OPEN:
            client = clients.get((row.local, row.remote))
            is_here = client is not None and client.inode != 0
            having = tuple(having_open(client.inode)) if client and is_here else ()
            found.append(Peer(read_address(row.remote), client.user if client and is_here else None, having, row.inode != 0))
    return sorted(found, key=lambda peer: not peer.is_served)


def having_open(inode: int) -> Iterator[int]:
    """Returns the processes that have a socket open."""
    name = f"socket:[{inode}]"
    return (process for process in processes() if name in links_of(process))
