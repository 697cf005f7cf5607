"""A thousand watchers: how soon the last of them has the view after a signal."""

from __future__ import annotations

import asyncio
import json
import resource
import select
import socket
import statistics
import time
from collections.abc import Sequence

from coordinator import Server, once
from running import Proxy, Tools


def connect(path: str, count: int) -> list[socket.socket]:
    """As many connections as asked for, none of which says anything."""
    most = resource.getrlimit(resource.RLIMIT_NOFILE)[1]
    resource.setrlimit(resource.RLIMIT_NOFILE, (most, most))
    kept = []
    for _ in range(count):
        connection = socket.socket(socket.AF_UNIX)
        while connection.connect_ex(path) != 0:
            time.sleep(0.01)
        kept.append(connection)
    return kept


def watch(connections: Sequence[socket.socket]) -> None:
    for connection in connections:
        connection.sendall(b'{"op":"watch"}\n')
    await_views(connections, 0)


def await_views(connections: Sequence[socket.socket], epoch: int) -> None:
    """Reads until each connection has a view in which node 1 has this epoch."""
    poller, rest = select.epoll(), dict[int, tuple[socket.socket, bytes]]()
    for connection in connections:
        poller.register(connection, select.EPOLLIN)
        rest[connection.fileno()] = (connection, b"")
    while rest:
        for number, _ in poller.poll(120):
            if number in rest:
                connection, text = rest[number]
                *lines, left = (text + connection.recv(65_536)).split(b"\n")
                rest[number] = (connection, left)
                if lines and json.loads(lines[-1])["nodes"][0][4] >= epoch:
                    del rest[number]
    poller.close()


def reached_after(server: Server, connections: Sequence[socket.socket], epoch: int) -> float:
    """Milliseconds from node 1's signal line until the last watcher has the view."""
    with open(server.signals, "rb") as signals:
        signals.seek(0, 2)
        asyncio.run(once(server.port, {"op": "reset", "client": 1, "number": epoch, "node": 1}))
        while not signals.read():
            pass
        began = time.monotonic()
        await_views(connections, epoch)
        return 1000 * (time.monotonic() - began)


def until_the_last(tools: Tools, count: int, times: int) -> float:
    """Milliseconds from a signal line until the last of this many watchers has the view: the median of some resets."""
    with Server(tools.server, tools.library, 1, []) as server:
        arguments = ["--signals", server.signals, "--connections", str(count + 10)]
        with Proxy(tools, server.address, server.folder, arguments=arguments) as proxy:
            connections = connect(proxy.path(), count)
            watch(connections)
            return statistics.median(reached_after(server, connections, epoch) for epoch in range(1, times + 1))
