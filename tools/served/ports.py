"""Ports of this machine that are reserved for one user."""

import socket

_held = list[socket.socket]()  # until this process ends


def held_ports(count: int) -> list[int]:
    """Reserves ports of 127.0.0.1: while this process runs, no listener at port 0 and no connection gets them. Each is bound
    here without listening: a server that sets SO_REUSEADDR may listen there, repeatedly."""
    new = [socket.socket() for _ in range(count)]
    for one in new:
        one.setsockopt(socket.SOL_SOCKET, socket.SO_REUSEADDR, 1)
        one.bind(("127.0.0.1", 0))
    _held.extend(new)
    return [one.getsockname()[1] for one in new]


def held_address() -> str:
    return f"127.0.0.1:{held_ports(1)[0]}"
